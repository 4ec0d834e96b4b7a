"""Prints the modulus of the public key in a file."""
import ctypes
import sys

class Bytes(ctypes.Structure):
    _fields_ = [("data", ctypes.c_void_p), ("len", ctypes.c_size_t)]

class PublicKey(ctypes.Structure):
    _fields_ = [("modulus", Bytes), ("public_exponent", Bytes)]

library = ctypes.CDLL("libpkcs1.so.1")
library.pkcs1_strerror.restype = ctypes.c_char_p
library.pkcs1_public_key_decode.argtypes = ctypes.c_char_p, ctypes.c_size_t, ctypes.POINTER(PublicKey)
der, key = open(sys.argv[1], "rb").read(), PublicKey()
status = library.pkcs1_public_key_decode(der, len(der), key)
if status != 0:
    sys.exit(f"{sys.argv[1]}: {library.pkcs1_strerror(status).decode()}")
print(ctypes.string_at(key.modulus.data, key.modulus.len).hex())
