/* QEMU's board mps2-an385: 4 MB of code memory at 0, 16 MB of data memory at 21000000h. */
MEMORY
{
    code : ORIGIN = 0x00000000, LENGTH = 4M
    data : ORIGIN = 0x21000000, LENGTH = 16M
}
INCLUDE board.ld
