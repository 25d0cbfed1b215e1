#!/usr/bin/env python3
"""Runs the recipe of docs/USING.md for PyJWT over tokens that are signed here. It is called by gate/recipes.py.

usage: gate/jwt_tokens.py PORT   (by a Python that has PyJWT, with the client in PYTHONPATH, and an empty store at the port)
"""
import datetime
import sys

import jwt
from cryptography.hazmat.primitives.asymmetric import ec, rsa
from hopslintel import Client

sys.dont_write_bytecode = True

from recipe_rooms import BLOCKS  # noqa: E402

# The recipe, which defines claims_of.
exec(BLOCKS["A JWT library"][1])
NOW = datetime.datetime.now(datetime.timezone.utc)


def number(value, size):
    return jwt.utils.base64url_encode(value.to_bytes(size, "big")).decode()


def entry(kid, key):
    """The JWT authority of a key."""
    public = key.public_key().public_numbers()
    if isinstance(key, rsa.RSAPrivateKey):
        return {"use": "jwt-svid", "kty": "RSA", "kid": kid, "n": number(public.n, 256), "e": number(public.e, 3)}
    return {"use": "jwt-svid", "kty": "EC", "crv": "P-256", "kid": kid, "x": number(public.x, 32), "y": number(public.y, 32)}


def token(key, kid, subject="spiffe://a.example/w", **claims):
    algorithm = "RS256" if isinstance(key, rsa.RSAPrivateKey) else "ES256"
    claims = {"sub": subject, "aud": ["me"], "exp": NOW + datetime.timedelta(hours=1), **claims}
    claims = {name: value for name, value in claims.items() if value is not None}
    return jwt.encode(claims, key, algorithm, headers={"kid": kid})


def is_refused(store, text):
    try:
        return not claims_of(store, text, "me")
    except jwt.InvalidTokenError:
        return True


def main():
    elliptic, other = ec.generate_private_key(ec.SECP256R1()), ec.generate_private_key(ec.SECP256R1())
    modular = rsa.generate_private_key(65537, 2048)
    over = NOW - datetime.timedelta(hours=1)
    with Client.connect(int(sys.argv[1])) as store:
        store.set("a.example", {"keys": [entry("e", elliptic), entry("r", modular)], "spiffe_sequence": 1})
        store.set("b.example", {"keys": [entry("e", other)], "spiffe_sequence": 1})
        for key, kid in ((elliptic, "e"), (modular, "r")):
            assert claims_of(store, token(key, kid), "me")["sub"] == "spiffe://a.example/w"
        of_other = token(other, "e", "spiffe://b.example/w")
        assert claims_of(store, of_other, "me")["sub"] == "spiffe://b.example/w"
        # By the key of another domain, or of this one under another name; over; for somebody else; without an end.
        wrong = [token(other, "e"), token(elliptic, "r"), token(modular, "e"), token(elliptic, "x"), token(elliptic, "e", exp=over)]
        wrong += [token(elliptic, "e", aud=["you"]), token(elliptic, "e", exp=None)]
        # Of a domain without a bundle, or of no domain; no token; a key that is a text that all know.
        wrong += [token(elliptic, "e", it) for it in ("spiffe://c.example/w", "spiffe://A..!/w", "spiffe://", "a.example/w", None)]
        wrong += ["x.y.z", jwt.encode({"sub": "spiffe://a.example/w", "aud": "me", "exp": 1 << 40}, "e", "HS256", {"kid": "e"})]
        for place, text in enumerate(wrong):
            assert is_refused(store, text), place
        store.set("a.example", {"keys": [], "spiffe_sequence": 2})
        assert is_refused(store, token(elliptic, "e")), "a domain that withdrew its authorities"
        store.remove("b.example")
        assert is_refused(store, of_other), "a domain that was removed"


if __name__ == "__main__":
    main()
