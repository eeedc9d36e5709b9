"""A prover written down from the definitions of docs/STRATEGIES.md, with nothing clever in it: terms are trees, every list
is made whole, and a finite search walks all prefixes of values in order. It answers as `trsprove` does with one worker, and
is there to be compared with it on small systems."""
