// The words that the two files in C of the module share, which have no other header.
typedef unsigned long size; // of 64 bits
typedef unsigned char byte;
