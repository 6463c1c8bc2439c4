"""AES-256 in counter mode by the library libcrypto, for long texts: the plain program of this folder takes a minute for a megabyte."""
import ctypes
import ctypes.util

NAME = ctypes.util.find_library("crypto")


def ctr(key, counter, text):
    library = ctypes.CDLL(NAME)
    library.EVP_CIPHER_CTX_new.restype = library.EVP_aes_256_ctr.restype = ctypes.c_void_p
    context, cipher = ctypes.c_void_p(library.EVP_CIPHER_CTX_new()), ctypes.c_void_p(library.EVP_aes_256_ctr())
    out, length = ctypes.create_string_buffer(len(text)), ctypes.c_int()
    is_begun = library.EVP_EncryptInit_ex(context, cipher, None, key, counter.to_bytes(16, "big"))
    is_done = library.EVP_EncryptUpdate(context, out, ctypes.byref(length), text, len(text))
    library.EVP_CIPHER_CTX_free(context)
    if (is_begun, is_done, length.value) != (1, 1, len(text)):
        raise ValueError("libcrypto doesn't encrypt")
    return out.raw
