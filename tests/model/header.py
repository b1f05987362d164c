"""The header of a file (section "The header"): its parameters, or its first refusal."""

from dataclasses import dataclass

from .bits import Bits, Refusal

@dataclass
class Parameters:
    """The parameters that a header records; `sizes` are columns, rows and bands."""

    user: int = 0
    sizes: tuple = (1, 1, 1)
    signed: bool = False
    bits: int = 0
    depth: int = 0
    """The interleaving depth; 0 stands for band sequential order."""
    word: int = 0
    block: bool = False
    previous: int = 0
    reduced: bool = False
    column: bool = False
    register: int = 0
    omega: int = 0
    interval_log: int = 0
    vmin: int = 0
    vmax: int = 0
    umax: int = 0
    gamma_star: int = 0
    gamma_zero: int = 0
    constant: int = 0
    size: int = 0
    restricted: bool = False
    reference: int = 0
    resolution: int = 0
    weights: list = None
    """The weight table, where there is one: a list of numbers for each band."""
    constants: list = None
    """The accumulator table, where there is one: a constant for each band."""
    length: int = 0
    """The number of bytes of the header that were read."""

    @property
    def count(self):
        columns, rows, bands = self.sizes
        return columns * rows * bands

    def components(self, band):
        """Returns the number of components of a band, which is that of its weights."""
        return min(band, self.previous) + (0 if self.reduced else 3)

    @property
    def least(self):
        return -(1 << self.bits - 1) if self.signed else 0

    @property
    def greatest(self):
        return self.least + (1 << self.bits) - 1

    @property
    def middle(self):
        return 0 if self.signed else 1 << self.bits - 1


class Part:
    """One part of a header, whose fields are read one after another."""

    def __init__(self, file, params, size):
        if len(file) < params.length + size:
            raise Refusal("1 ShortHeader")
        self.bits = Bits(file)
        self.bits.at = 8 * params.length
        params.length += size

    def field(self, width):
        return self.bits.take(width)

    def signed_field(self, width):
        number = self.field(width)
        return number - (1 << width) if number >> width - 1 else number

    def or_whole(self, width):
        """Takes a field in which 0 stands for 2^width, and returns its value."""
        return self.field(width) or 1 << width

    def reserved(self, width):
        for _ in range(width):
            if self.field(1):
                raise Refusal(f"2 Reserved {self.bits.at - 1}")


def out_of_range(field, value):
    return Refusal(f"3 FieldRange {field} {value}")


def disagree(rule):
    return Refusal(f"4 Disagree {rule}")


def image_part(file, params):
    part = Part(file, params, 12)
    params.user = part.field(8)
    params.sizes = tuple(part.or_whole(16) for _ in range(3))
    params.signed = bool(part.field(1))
    part.reserved(2)
    params.bits = part.or_whole(4)
    if params.bits < 2:
        raise out_of_range("DynamicRange", params.bits)
    sequential = part.field(1)
    depth = part.or_whole(16)
    if not sequential and depth > params.sizes[2]:
        raise disagree("DepthOverBands")
    params.depth = 0 if sequential else depth
    part.reserved(2)
    params.word = part.or_whole(3)
    params.block = bool(part.field(1))
    part.reserved(10)


def predictor_part(file, params):
    part = Part(file, params, 5)
    part.reserved(2)
    params.previous = part.field(4)
    params.reduced = bool(part.field(1))
    if not params.reduced and params.sizes[0] == 1:
        raise disagree("FullOneColumn")
    part.reserved(1)
    params.column = bool(part.field(1))
    if not params.column and params.sizes[0] == 1:
        raise disagree("NeighbourOneColumn")
    part.reserved(1)
    params.register = part.or_whole(6)
    if params.register < 32:
        raise out_of_range("Register", params.register)
    params.omega = part.field(4) + 4
    if params.register < params.bits + params.omega + 2:
        raise disagree("RegisterTooSmall")
    params.interval_log = part.field(4) + 4
    if params.interval_log > 11:
        raise out_of_range("Interval", params.interval_log)
    params.vmin = part.field(4) - 6
    params.vmax = part.field(4) - 6
    if params.vmin > params.vmax:
        raise disagree("ExponentOrder")
    part.reserved(1)
    custom = part.field(1)
    table = part.field(1)
    if table and not custom:
        raise disagree("DefaultWithTable")
    if custom and not table:
        raise Refusal("5 TableElsewhere")
    params.resolution = part.field(5)
    if not custom and params.resolution:
        raise disagree("DefaultWithResolution")
    if custom and params.resolution < 3:
        raise out_of_range("Resolution", params.resolution)
    if params.resolution > params.omega + 3:
        raise disagree("ResolutionOverOmega")
    if table:
        weight_table(file, params)


def whole_bytes(bits):
    """Returns the number of bytes that so many bits take, and the number of fill bits in the last of them."""
    size = -(-bits // 8)
    return size, 8 * size - bits


def weight_table(file, params):
    counts = [params.components(band) for band in range(params.sizes[2])]
    size, fill = whole_bytes(sum(counts) * params.resolution)
    part = Part(file, params, size)
    params.weights = [[part.signed_field(params.resolution) for _ in range(count)] for count in counts]
    part.reserved(fill)


def accumulator_table(file, params):
    bands = params.sizes[2]
    size, fill = whole_bytes(4 * bands)
    part = Part(file, params, size)
    params.constants = [part.field(4) for _ in range(bands)]
    if max(params.constants) > params.bits - 2:
        raise disagree("AccumulatorEntry")
    part.reserved(fill)


def sample_part(file, params):
    part = Part(file, params, 2)
    params.umax = part.or_whole(5)
    if params.umax < 8:
        raise out_of_range("Umax", params.umax)
    params.gamma_star = part.field(3) + 4
    if params.gamma_star > 9:
        raise out_of_range("GammaStar", params.gamma_star)
    params.gamma_zero = part.or_whole(3)
    if params.gamma_star <= params.gamma_zero:
        raise disagree("CounterOrder")
    params.constant = part.field(4)
    table = part.field(1)
    if not table and params.constant > params.bits - 2:
        raise disagree("StartConstant")
    if table and params.constant != 15:
        raise disagree("ConstantWithTable")
    if table:
        accumulator_table(file, params)


def block_part(file, params):
    part = Part(file, params, 2)
    part.reserved(1)
    params.size = 8 << part.field(2)
    params.restricted = bool(part.field(1))
    if params.restricted and params.bits > 4:
        raise disagree("RestrictedOverFour")
    params.reference = part.or_whole(12)


def header(file):
    """Returns the parameters that the header of a file records."""
    params = Parameters()
    image_part(file, params)
    predictor_part(file, params)
    (block_part if params.block else sample_part)(file, params)
    return params


def inspected(params):
    """Returns the lines that `inspect` prints."""
    lines = [
        f"user {params.user}",
        "columns {}\nrows {}\nbands {}".format(*params.sizes),
        "sample signed" if params.signed else "sample unsigned",
        f"bits {params.bits}",
        f"order bi {params.depth}" if params.depth else "order bsq",
        f"word {params.word}",
        "coder block" if params.block else "coder sample",
        f"previous {params.previous}",
        "mode reduced" if params.reduced else "mode full",
        "sums column" if params.column else "sums neighbour",
        f"register {params.register}\nomega {params.omega}\ninterval {1 << params.interval_log}",
        f"vmin {params.vmin}\nvmax {params.vmax}",
        f"start table {params.resolution}" if params.weights is not None else "start usual",
    ]
    if params.block:
        restricted = "yes" if params.restricted else "no"
        lines.append(f"block {params.size}\nrestricted {restricted}\nreference {params.reference}")
    else:
        constant = "table" if params.constants is not None else params.constant
        lines.append(f"umax {params.umax}\ngamma-star {params.gamma_star}\ngamma-zero {params.gamma_zero}\nk {constant}")
    lines.append(f"header {params.length}\n")
    return "\n".join(lines)
