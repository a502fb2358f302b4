"""A second machine for the same firmware, written from the rules in words and never from the definitions of crates/.

It does one instruction to its end before the next. `numbers`, `table` and `words` have the instruction words; `memory`,
`state` and `frames` what the machine holds; `controls`, `results`, `marks`, `transfers`, `calls`, `faults`,
`interrupts`, `dma` and `tracing` each a subject of the rules; `step` the order of what one instruction does; `run` a
whole run and its text; `debugger` what a session tells at the end of a run; `instructions` and `firmware` make the
inputs at random.
"""
