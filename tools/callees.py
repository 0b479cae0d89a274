#!/usr/bin/env python3
"""Which functions a function runs, and whether one of them calls itself, by the compiler's own listing.

    cat LISTING.. | tools/callees.py FUNCTION [CHECK..]

A LISTING is what the compiler made of a crate: toolchain/mir.json in the library that `rt lib` writes, and in those of the kit. Reads those of all crates whose
functions may run and prints a line for each function that FUNCTION runs, itself first: its name, `(loop)` where it has one, and the functions that it calls. A CHECK has no line,
nor has what runs only inside it. Ends with 1 where a function that has a line calls itself, directly or through others, and prints by which calls; with 2
where it cannot tell: a function without a body in the listings, one that is called by a pointer, or a CHECK that is never run.

A method that is called through a bound is that of the `impl` which the callers hand down for it.

Where the program's text fixes a value's variant, as of `RelationRead::Relates(..)` handed down from function to function, a `match` on it counts with
the arm of that variant; any other `match` or `if` counts with all its branches.
"""
import json
import sys

# How many parts a term of a body has; a `Switch` has its arms and the default.
PARTS = {'Seq': 2, 'If': 2, 'Block': 1, 'Loop': 1, 'Assign': 0, 'LendStatic': 0, 'Call': 0, 'Return': 0, 'Exit': 0, 'Skip': 0, 'Unreachable': 0}


class Unclear(Exception):
    """why there is no answer"""


# The listing.

def named(term):
    """the kind of a term and what it holds"""
    return (term, None) if isinstance(term, str) else next(iter(term.items()))


class Body:
    """the terms of a body, each before its parts, and for each where its parts are"""

    def __init__(self, terms):
        self.terms, self.parts, begun = [named(term) for term in terms], {}, []
        for at, (kind, holds) in reversed(list(enumerate(self.terms))):
            count = len(holds[1]) + holds[2] if kind == 'Switch' else PARTS.get(kind)
            if count is None or count > len(begun):
                raise Unclear(f'the listing has a {kind} that cannot be read')
            self.parts[at] = [begun.pop() for _ in range(count)]
            begun.append(at)

    def running(self, known):
        """the terms that may run, where the variants of some locals are known"""
        rest = [0]
        while rest:
            at = rest.pop()
            yield self.terms[at]
            rest.extend(reversed(self.branches(at, known) if self.terms[at][0] == 'Switch' else self.parts[at]))

    def branches(self, at, known):
        """the parts of a `match` that may run"""
        operand, arms, _ = self.terms[at][1]
        place = operand.get('Copy', {'steps': []})
        variant = known.get(place['local']) if [named(step) for step in place['steps']][1:] == [('Field', 0)] and 'Variant' in place['steps'][0] else None
        bodies, default = self.parts[at][:len(arms)], self.parts[at][len(arms):]
        return bodies + default if variant is None else [body for arm, body in zip(arms, bodies) if variant in arm] or default


def functions_of(listings):
    """name -> the number of its parameters, which are the locals from 1 on, and the terms of its body; and of each `impl` that a function may hand down its
    methods in their order; a listing is one line"""
    functions, methods = {}, {}
    for listing in listings:
        for name, function in json.loads(listing):
            functions[name] = function['params'], function['body']
            methods.update((impl['name'], impl['methods']) for impl in function['generics']['impls'])
    return functions, methods


# What a function calls, where the variants of some parameters are known.

def variants_in(body, parameters, given):
    """local -> its first field, which of an enum is the variant, where only one can stand there; `given` has those of parameters"""
    writes, lent = {}, set()
    for kind, holds in body.terms:
        if kind in ('Assign', 'LendStatic'):
            writes.setdefault(holds[0]['local'], []).append((holds[0]['steps'], *named(holds[1])))
        elif kind == 'Call':
            writes.setdefault(holds[2]['local'], []).append((holds[2]['steps'], kind, holds))
        if kind == 'Assign' and named(holds[1])[0] == 'AddrOf':
            lent.add(holds[1]['AddrOf']['local'])
    known = {local: variant for local, variant in given.items() if local not in writes}
    for local, ((steps, kind, value), *others) in writes.items():
        if not steps and kind == 'Aggregate' and value and not others and local > parameters and named(value[0])[0] == 'Int':
            known[local] = value[0]['Int']['value']
    return {local: variant for local, variant in known.items() if local not in lent}


def handed(bounds, given):
    """what stands for the bounds of a callee, each an `impl` with what stands for its own: `given` has that of the caller's bounds"""
    stand = []
    for bound in bounds:
        kind, holds = named(bound)
        if kind == 'Given':
            stand.append(given[holds])
        elif kind == 'Impl':
            stand.append((holds[0], handed(holds[2], given)))
        else:
            raise Unclear(f'a bound is met by a {kind}')
    return tuple(stand)


def callee_of(callee, given, methods):
    """the function called, and what stands for its bounds"""
    kind, holds = named(callee)
    if kind == 'Fn':
        return holds[0], handed(holds[1]['dicts'], given)
    if kind == 'Method':
        (impl, own), = handed(holds[:1], given)
        if impl not in methods:
            raise Unclear(f'{impl} has no methods in the listings')
        return methods[impl][holds[1]], own + handed(holds[2]['dicts'], given)
    raise Unclear('a function is called by a pointer')


def calls_in(body, known, given, methods):
    """the functions called, each with what stands for its bounds and the variants of its parameters that are known"""
    for kind, holds in body.running(known):
        if kind == 'Call':
            callee, operands, _ = holds
            places = {at: operand['Copy'] for at, operand in enumerate(operands, 1) if 'Copy' in operand}
            yield (*callee_of(callee, given, methods), {at: known[place['local']] for at, place in places.items() if not place['steps'] and place['local'] in known})


# What a function runs.

def graph(functions, methods, root, checks=()):
    """function -> the functions that it calls, of all that the root runs without entering a check; and which of them have a loop"""
    calls, loops = {}, set()
    seen, rest = [], [(root, (), {})]
    while rest:
        name, bounds, variants = rest.pop(0)
        if name in checks or (name, bounds, variants) in seen:
            continue
        seen.append((name, bounds, variants))
        if name not in functions:
            raise Unclear(f'{name} has no body in the listings')
        parameters, terms = functions[name]
        body = Body(terms)
        known = variants_in(body, parameters, variants)
        if any(kind == 'Loop' for kind, _ in body.running(known)):
            loops.add(name)
        called = list(calls_in(body, known, bounds, methods))
        calls.setdefault(name, {}).update((callee, None) for callee, _, _ in called)
        rest.extend(called)
    for name in checks:
        if not any(name in called for called in calls.values()):
            raise Unclear(f'{name} is never run')
    return calls, loops


def way_back(name, calls):
    """a shortest way by calls from a function to itself, else None"""
    begun, met = [[name]], set()
    while begun:
        way = begun.pop(0)
        for callee in calls[way[-1]]:
            if callee == name:
                return way + [name]
            if callee not in met:
                met.add(callee)
                begun.append(way + [callee])
    return None


def main(root, checks):
    functions, methods = functions_of(sys.stdin)
    calls, loops = graph(functions, methods, root, checks)
    for name, called in calls.items():
        print(name + (' (loop)' if name in loops else '') + (': ' if called else '') + ', '.join(called))
    with_checks, _ = graph(functions, methods, root)
    found = [way for way in (way_back(name, with_checks) for name in calls) if way]
    for way in found:
        print('calls itself: ' + ' -> '.join(way))
    return 1 if found else 0


if __name__ == '__main__':
    if len(sys.argv) < 2:
        print(__doc__)
        sys.exit(2)
    try:
        sys.exit(main(sys.argv[1], sys.argv[2:]))
    except Unclear as why:
        print(why)
        sys.exit(2)
