/* QEMU's board microbit: 256 KB of flash memory at 0, 16 KB of data memory at 20000000h. */
MEMORY
{
    code : ORIGIN = 0x00000000, LENGTH = 256K
    data : ORIGIN = 0x20000000, LENGTH = 16K
}
INCLUDE board.ld
