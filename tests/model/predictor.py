"""The samples that residuals stand for (sections "Local sums and differences" to "Mapped residual")."""

from .coders import places


class Predictor:
    """The predictor of all bands, which turns residuals into samples, place after place."""

    def __init__(self, params):
        self.params = params
        self.samples = {}
        self.weights = {}

    def sum_at(self, z, y, x):
        def s(row, column):
            return self.samples[z, row, column]

        if y == 0:
            return 4 * s(0, x - 1)
        if self.params.column:
            return 4 * s(y - 1, x)
        if x == 0:
            return 2 * (s(y - 1, 0) + s(y - 1, 1))
        if x == self.params.sizes[0] - 1:
            return s(y, x - 1) + s(y - 1, x - 1) + 2 * s(y - 1, x)
        return s(y, x - 1) + s(y - 1, x - 1) + s(y - 1, x) + s(y - 1, x + 1)

    def differences(self, z, y, x, local_sum):
        directional = []
        if not self.params.reduced and y == 0:
            directional = [0, 0, 0]
        elif not self.params.reduced:
            north = self.samples[z, y - 1, x]
            west = self.samples[z, y, x - 1] if x else north
            north_west = self.samples[z, y - 1, x - 1] if x else north
            directional = [4 * neighbour - local_sum for neighbour in (north, west, north_west)]
        below = range(z - 1, z - 1 - min(z, self.params.previous), -1)
        return directional + [4 * self.samples[b, y, x] - self.sum_at(b, y, x) for b in below]

    def start(self, z):
        """Returns the initial weights of a band."""
        params = self.params
        if params.weights is None:
            return self.usual_start(z)
        under = params.omega + 2 - params.resolution
        ones = (1 << under) - 1 if under >= 0 else 0
        return [(entry << under + 1) + ones for entry in params.weights[z]]

    def usual_start(self, z):
        weights, weight = [], 7 << self.params.omega - 3
        for _ in range(min(z, self.params.previous)):
            weights.append(weight)
            weight //= 8
        return weights if self.params.reduced else [0, 0, 0] + weights

    def scaled(self, local_sum, weights, differences):
        params = self.params
        product = sum(weight * difference for weight, difference in zip(weights, differences))
        held = product + (local_sum - 4 * params.middle << params.omega)
        half = 1 << params.register - 1
        held = (held + half) % (2 * half) - half
        value = (held >> params.omega + 1) + 2 * params.middle + 1
        return min(max(value, 2 * params.least), 2 * params.greatest + 1)

    def sample(self, scaled, residual):
        """Returns the sample that has this mapped residual."""
        predicted = scaled // 2
        near = min(predicted - self.params.least, self.params.greatest - predicted)
        if residual > 2 * near:
            away = residual - near
            return predicted + (away if predicted - self.params.least == near else -away)
        half = (residual + 1) // 2
        return predicted + (half if (residual + scaled) % 2 == 0 else -half)

    def learn(self, t, weights, differences, error):
        params = self.params
        growth = params.vmin + (t - params.sizes[0] >> params.interval_log)
        exponent = min(max(growth, params.vmin), params.vmax) + params.bits - params.omega
        limit = 1 << params.omega + 2
        for place, difference in enumerate(differences):
            signed = difference if error >= 0 else -difference
            if exponent >= 0:
                step = signed + (1 << exponent) >> exponent + 1
            else:
                step = signed << -exponent - 1
            weights[place] = min(max(weights[place] + step, -limit), limit - 1)

    def take(self, z, y, x, residual):
        params = self.params
        t = y * params.sizes[0] + x
        if t == 0:
            below = self.samples[z - 1, 0, 0] if params.previous and z else params.middle
            self.weights[z] = self.start(z)
            self.samples[z, y, x] = self.sample(2 * below, residual)
            return
        local_sum = self.sum_at(z, y, x)
        differences = self.differences(z, y, x, local_sum)
        scaled = self.scaled(local_sum, self.weights[z], differences)
        sample = self.sample(scaled, residual)
        self.samples[z, y, x] = sample
        self.learn(t, self.weights[z], differences, 2 * sample - scaled)


def raw_bytes(params, numbers):
    """Returns the raw bytes that residuals are expanded to, band sequential, two bytes a sample, the high byte first."""
    predictor = Predictor(params)
    for (z, y, x), number in zip(places(params), numbers):
        predictor.take(z, y, x, number)
    columns, rows, bands = params.sizes
    return b"".join(
        predictor.samples[z, y, x].to_bytes(2, "big", signed=params.signed)
        for z in range(bands)
        for y in range(rows)
        for x in range(columns)
    )
