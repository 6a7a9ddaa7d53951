"""A plain model of what `hart` does, from the standard, docs/WIRE.md and docs/FORMATS.md, and makers of random inputs for it.

`heard`, `misheard`, `inputs`, `events`, `images` and `calls` make the inputs; `request` and `serve` make some too.
`worked` has worked messages. The model is all other modules, `request` and `serve`.
It shares no code with the program, and knows nothing of how the program works.
"""
