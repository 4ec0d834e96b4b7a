"""RSA keys of consistent numbers: the modulus is the product of the primes, and so on. They are weak on purpose."""

SMALL_PRIMES = (2, 3, 5, 7, 11, 13, 17, 19, 23, 29, 31, 37, 41, 43, 47)


def is_prime(number, rng, rounds=12):
    """Whether the number is prime, by Miller and Rabin."""
    for small in SMALL_PRIMES:
        if number % small == 0:
            return number == small
    odd, twos = number - 1, 0
    while odd % 2 == 0:
        odd, twos = odd // 2, twos + 1
    return all(is_no_witness(rng.randrange(2, number - 1), number, odd, twos) for _ in range(rounds))


def is_no_witness(base, number, odd, twos):
    power = pow(base, odd, number)
    if power in (1, number - 1):
        return True
    for _ in range(twos - 1):
        power = power * power % number
        if power == number - 1:
            return True
    return False


def make_prime(bits, exponent, rng):
    while True:
        number = rng.getrandbits(bits) | (3 << (bits - 2)) | 1
        if number % exponent != 1 and is_prime(number, rng):
            return number


def make_key(bits, count, rng, exponent=65537):
    """A key of this many bits and primes."""
    size = bits // count
    primes = [make_prime(size if i else bits - size * (count - 1), exponent, rng) for i in range(count)]
    return key_of(primes, exponent)


def key_of(primes, exponent):
    """The key of these primes, by the names of RFC 8017."""
    modulus = order = 1
    for prime in primes:
        modulus *= prime
        order *= prime - 1
    private = pow(exponent, -1, order)
    key = {
        "n": modulus, "e": exponent, "d": private, "p": primes[0], "q": primes[1],
        "dP": private % (primes[0] - 1), "dQ": private % (primes[1] - 1), "qInv": pow(primes[1], -1, primes[0]),
        "others": [],
    }
    product = primes[0] * primes[1]
    for prime in primes[2:]:
        key["others"].append((prime, private % (prime - 1), pow(product, -1, prime)))
        product *= prime
    return key
