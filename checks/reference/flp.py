"""Proof, query and decision."""

from poly import evaluate, inverse, ntt


class Root(Exception):
    """The query point t has t^P = 1."""


def order_of(circuit):
    """P: the least power of two that is at least calls + 1."""
    order = 1
    while order < circuit.calls + 1:
        order *= 2
    return order


def proof_len(circuit):
    """The seeds and the gadget polynomial's coefficients."""
    return circuit.arity + 2 * (order_of(circuit) - 1) + 1


def verifier_len(circuit):
    """The validity value, the wires at t, the gadget polynomial at t."""
    return 1 + circuit.arity + 1


def wire_polynomials(circuit, x, seeds):
    """Wire polynomial j: its seed at alpha^0, input j of call k at alpha^k, then 0."""
    order = order_of(circuit)
    wires = []
    for j in range(circuit.arity):
        values = [seeds[j]]
        values += [circuit.input(x, call, j) for call in range(1, circuit.calls + 1)]
        values += [0] * (order - len(values))
        wires.append(inverse(circuit.field, values))
    return wires


def gadget_polynomial(circuit, wires):
    """G of the wire polynomials, with 2(P-1) + 1 coefficients.

    G has degree 2 at most, so the result has degree 2(P-1) at most and is
    the only such polynomial with its values at the 2P powers of the root of
    order 2P.
    """
    order = order_of(circuit)
    values = [ntt(circuit.field, wire + [0] * order) for wire in wires]
    coefficients = inverse(circuit.field,
                           [circuit.gadget(list(at)) for at in zip(*values)])
    assert coefficients[-1] == 0
    return coefficients[:-1]


def prove(circuit, x, seeds, joint):
    """The proof: the seeds, then the gadget polynomial."""
    wires = wire_polynomials(circuit, x, seeds)
    return list(seeds) + gadget_polynomial(circuit, wires)


def query(circuit, one, x, proof, joint, t):
    """The verifier share at t."""
    field, order = circuit.field, order_of(circuit)
    if pow(t, order, field.p) == 1:
        raise Root
    seeds, gadget = proof[:circuit.arity], proof[circuit.arity:]
    wires = wire_polynomials(circuit, x, seeds)
    # At a power of alpha, coefficients whose places differ by P fall together.
    folded = [sum(gadget[i::order]) % field.p for i in range(order)]
    results = ntt(field, folded)[1:circuit.calls + 1]
    return ([circuit.validity(one, x, joint, results)]
            + [evaluate(field, wire, t) for wire in wires]
            + [evaluate(field, gadget, t)])


def decide(circuit, verifier):
    """Yes where the first element is 0 and G of the next a equals the last."""
    wires = verifier[1:1 + circuit.arity]
    return verifier[0] == 0 and circuit.gadget(wires) == verifier[-1]
