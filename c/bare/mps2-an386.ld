/* The same memory as the board mps2-an385. */
INCLUDE mps2-an385.ld
