"""A second workbench, short and slow, over whole paths and plain lists, written from the definitions and not from the program.

It reads schemas, objects, commands and bench files, answers lines and words, and writes bench files. `tools/plain` draws stories for
it and for the built program, and compares what both say. It shares nothing with the program, not even readers of values.
"""
