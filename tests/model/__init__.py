"""A model of the decoder, written after docs/FORMAT.md, that shares nothing with the program.

It is written for clarity, on whole numbers and strings of bits, and gives the fuzzer the expected answers of the program.
The sections that its modules name are those of docs/FORMAT.md.
"""
