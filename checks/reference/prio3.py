"""Prio3 with two shares."""

from dataclasses import dataclass

import flp
from aes_cmac import ZERO_BLOCK, Prg, Spent
from circuits import BadValue, Count, Histogram, Sum, Vector

LEADER, HELPER = 0, 1


class Invalid(Exception):
    """`init`, `combine` or `finish` has no value."""


@dataclass(frozen=True)
class Kind:
    """The kind of a task: `form` is count, sum, histogram or vector."""

    form: str
    bits: int = 0
    bounds: tuple = ()
    len: int = 0

    @staticmethod
    def count():
        return Kind("count")

    @staticmethod
    def sum(bits):
        return Kind("sum", bits=bits)

    @staticmethod
    def histogram(bounds):
        return Kind("histogram", bounds=tuple(bounds))

    @staticmethod
    def vector(len, bits):
        return Kind("vector", bits=bits, len=len)

    def circuit(self):
        if self.form == "count":
            return Count()
        if self.form == "sum":
            return Sum(self.bits)
        if self.form == "histogram":
            return Histogram(self.bounds)
        return Vector(self.len, self.bits)

    def words(self):
        """The words of a `task` line that stand between name and minimum."""
        if self.form == "sum":
            return f"sum {self.bits}"
        if self.form == "histogram":
            return "histogram " + ",".join(str(bound) for bound in self.bounds)
        if self.form == "vector":
            return f"vector {self.len} {self.bits}"
        return "count"


@dataclass(frozen=True)
class Shares:
    """What sharding gives, each part as bytes."""

    public: bytes
    leader: bytes
    helper: bytes


@dataclass(frozen=True)
class State:
    """What `init` keeps for `finish`: the out share's bytes and the joint seed."""

    out: bytes
    joint_seed: bytes


@dataclass
class Sharding:
    """Every value on the way of sharding; vectors are lists of numbers."""

    k_meas: bytes
    k_proof: bytes
    k_prove: bytes
    blind_l: bytes
    blind_h: bytes
    x: list
    x_h: list
    x_l: list
    part_l: bytes
    part_h: bytes
    joint_seed: bytes
    joint: list
    wire_seeds: list
    proof: list
    proof_h: list
    proof_l: list
    shares: Shares


class Prio3:
    """The measurement function of a kind."""

    def __init__(self, kind):
        self.kind = kind
        self.circuit = kind.circuit()
        self.field = self.circuit.field

    # --- pieces -------------------------------------------------------------

    def info(self, u, rest=b""):
        return b"dap prio3" + bytes([self.circuit.kind_byte, u]) + rest

    def _draw(self, seed, u, rest, n):
        return Prg(seed, self.info(u, rest)).draw(self.field, n)

    def _part(self, role, blind, id, x):
        rest = bytes([role]) + id + self.field.encode(x)
        return Prg(blind, self.info(2, rest)).next_bytes(16)

    def _joint_seed(self, part_l, part_h):
        return Prg(ZERO_BLOCK, self.info(3, part_l + part_h)).next_bytes(16)

    def _joint(self, joint_seed):
        return self._draw(joint_seed, 4, b"", self.circuit.joint_len)

    def _elements(self, data, n):
        """n elements from exactly these bytes."""
        if len(data) != n * self.field.size:
            raise Invalid
        vector = self.field.decode(data)
        if vector is None:
            raise Invalid
        return vector

    # --- lengths in bytes ---------------------------------------------------

    @property
    def blind_len(self):
        return 16 if self.circuit.joint_len else 0

    @property
    def public_len(self):
        return 32 if self.circuit.joint_len else 0

    @property
    def leader_len(self):
        elements = self.circuit.input_len + flp.proof_len(self.circuit)
        return elements * self.field.size + self.blind_len

    @property
    def helper_len(self):
        return 32 + self.blind_len

    @property
    def prep_share_len(self):
        return flp.verifier_len(self.circuit) * self.field.size + self.blind_len

    @property
    def out_len(self):
        return self.circuit.out_len * self.field.size

    # --- sharding -----------------------------------------------------------

    def shard(self, id, m, seed):
        """The shares of a measurement; BadValue or Spent where there are none."""
        return self.shard_input(id, self.circuit.encode(m), seed)

    def shard_input(self, id, x, seed):
        """Steps 1 to 5 for the input x, which needn't be an encoding."""
        return self.sharding(id, x, seed).shares

    def sharding(self, id, x, seed):
        """Steps 1 to 5, with all values on the way."""
        circuit, field = self.circuit, self.field
        keys = Prg(seed, self.info(0)).next_bytes(80)
        k_meas, k_proof, k_prove, blind_l, blind_h = (
            keys[i:i + 16] for i in range(0, 80, 16))
        x_h = self._draw(k_meas, 1, b"", circuit.input_len)
        x_l = field.sub(x, x_h)
        part_l = part_h = joint_seed = b""
        joint = []
        if circuit.joint_len:
            part_l = self._part(LEADER, blind_l, id, x_l)
            part_h = self._part(HELPER, blind_h, id, x_h)
            joint_seed = self._joint_seed(part_l, part_h)
            joint = self._joint(joint_seed)
        wire_seeds = self._draw(k_prove, 5, b"", circuit.arity)
        proof = flp.prove(circuit, x, wire_seeds, joint)
        proof_h = self._draw(k_proof, 6, b"", flp.proof_len(circuit))
        proof_l = field.sub(proof, proof_h)
        leader = field.encode(x_l) + field.encode(proof_l)
        helper = k_meas + k_proof
        if circuit.joint_len:
            leader += blind_l
            helper += blind_h
        shares = Shares(part_l + part_h, leader, helper)
        return Sharding(k_meas, k_proof, k_prove, blind_l, blind_h, list(x), x_h, x_l,
                        part_l, part_h, joint_seed, joint, wire_seeds, proof, proof_h,
                        proof_l, shares)

    # --- preparing ----------------------------------------------------------

    def init(self, role, key, id, public, input):
        """(state, prep share), or Invalid.  role is LEADER or HELPER."""
        circuit, field = self.circuit, self.field
        wanted = self.leader_len if role == LEADER else self.helper_len
        if len(public) != self.public_len or len(input) != wanted:
            raise Invalid
        shares = input[:wanted - self.blind_len]
        blind = input[wanted - self.blind_len:]
        try:
            if role == LEADER:
                vector = self._elements(shares, circuit.input_len + flp.proof_len(circuit))
                x, proof = vector[:circuit.input_len], vector[circuit.input_len:]
            else:
                x = self._draw(shares[:16], 1, b"", circuit.input_len)
                proof = self._draw(shares[16:], 6, b"", flp.proof_len(circuit))
            (t,) = self._draw(key, 7, id, 1)
            own = joint_seed = b""
            joint = []
            if circuit.joint_len:
                own = self._part(role, blind, id, x)
                parts = [public[:16], public[16:]]
                parts[role] = own
                joint_seed = self._joint_seed(*parts)
                joint = self._joint(joint_seed)
            verifier = flp.query(circuit, field.half, x, proof, joint, t)
        except (Spent, flp.Root):
            raise Invalid from None
        out = field.encode(circuit.truncate(x))
        return State(out, joint_seed), field.encode(verifier) + own

    def combine(self, leader, helper):
        """The prep message of two prep shares, or Invalid."""
        circuit = self.circuit
        verifiers, parts = [], []
        for share in (leader, helper):
            if len(share) != self.prep_share_len:
                raise Invalid
            cut = len(share) - self.blind_len
            verifiers.append(self._elements(share[:cut], flp.verifier_len(circuit)))
            parts.append(share[cut:])
        if not flp.decide(circuit, self.field.add(*verifiers)):
            raise Invalid
        return self._joint_seed(*parts) if circuit.joint_len else b""

    def finish(self, state, message):
        """The out share's bytes, or Invalid."""
        if message != state.joint_seed:
            raise Invalid
        return state.out

    # --- out shares ---------------------------------------------------------

    def zero(self):
        """The zero share's bytes."""
        return bytes(self.out_len)

    def is_out(self, data):
        """The bytes are an out share's."""
        return len(data) == self.out_len and self.field.decode(data) is not None

    def add(self, total, out):
        """The sum of two out shares, as bytes."""
        return self.field.encode(self.content(total, out))

    def content(self, leader, helper):
        """The sum of two out shares, as a list of numbers."""
        assert self.is_out(leader) and self.is_out(helper)
        return self.field.add(self.field.decode(leader), self.field.decode(helper))

    def answer(self, leader, helper):
        """The words of the answer of two sums of out shares."""
        return self.answer_words(self.content(leader, helper))

    def answer_words(self, content):
        """`count V`, `sum V`, `histogram V,V` or `vector V,V` of a summed content."""
        return self.kind.form + " " + ",".join(str(value) for value in content)


__all__ = ["BadValue", "HELPER", "Invalid", "Kind", "LEADER", "Prio3", "Sharding",
           "Shares", "Spent", "State"]
