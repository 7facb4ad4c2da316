/* QEMU's board mps2-an505: 4 MB of secure code memory at 10000000h, 16 MB of data memory at 80000000h. */
MEMORY
{
    code : ORIGIN = 0x10000000, LENGTH = 4M
    data : ORIGIN = 0x80000000, LENGTH = 16M
}
INCLUDE board.ld
