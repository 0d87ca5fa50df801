#!/usr/bin/env python3
"""Writes a safety model for the rounds of a justice property: its output can be 1 exactly where an initial run has K of them.

    rounds.py MODEL PROPERTY K SAFETY

k-liveness (Claessen, Sörensson, 2012): a round ends at a position at which each literal of the property and of fairness is true
or was since the last one ended; K latches count, in unary, how many have ended, and the output is the last of them. So it is 1
behind the run, at a position whose own constraints need not hold. MODEL is in ASCII, SAFETY in the form that l2s.py beside this
file writes, whose words these are.
"""
import sys

sys.dont_write_bytecode = True
import l2s  # noqa: E402

TRUE = l2s.TRUE


def monitor(model, property_number, count):
    """The circuit, the next literals of its latches, and its output."""
    inputs, latches, gates, constraints, properties, fairness = model
    safety = l2s.Safety()
    values = {0: l2s.FALSE} | {literal: safety.variable(safety.inputs) for literal in inputs}
    _, kept = l2s.state_of(safety, latches)
    values |= {literal: now for literal, _, now in kept}

    def value(literal):
        return values[literal & ~1] ^ (literal & 1)

    for gate, one, other in l2s.in_order(gates, values):
        values[gate] = safety.both(value(one), value(other))
    literals = properties[property_number] + fairness
    broken = safety.variable(safety.latches)
    seen = [safety.variable(safety.latches) for _ in literals]
    counters = [safety.variable(safety.latches) for _ in range(count)]
    holds = safety.both(broken ^ 1, safety.all(value(literal) for literal in constraints))
    met = [safety.either(was, value(literal)) for was, literal in zip(seen, literals)]
    ends = safety.all(met)
    steps = [TRUE]
    steps += [value(step) ^ negated for (_, step, *_), (_, negated, _) in zip(latches, kept)]
    steps += [holds ^ 1, *(safety.both(literal, ends ^ 1) for literal in met)]
    steps += [safety.either(counter, safety.both(before, ends)) for before, counter in zip([TRUE, *counters], counters)]
    return safety, steps, safety.both(broken ^ 1, counters[-1])


def main(words):
    model, number, count, path = words
    safety, steps, output = monitor(l2s.read_model(model), int(number), int(count))
    safety.write(steps, output, path)


if __name__ == "__main__":
    main(sys.argv[1:])
