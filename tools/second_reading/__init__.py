"""A second reading of docs/RULES.md, docs/FORMATS.md and docs/PROGRAMS.md, in plain Python: what the programs print.

It was written from the pages and shares no code with the crates, so that a rule misread in one of the two shows as a
difference. Each docstring quotes the sentence that its code stands for.
"""
