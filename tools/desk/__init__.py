"""The desk: sheets in, clock times out, why not, and a replay to look at.

It asks the built program, and nothing of it is proved.
"""
