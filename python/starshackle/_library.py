"""The shared object, and what its functions take."""

import ctypes
import os

Fields = ctypes.c_uint64 * 8
Answers = ctypes.c_uint64 * 5
StoreAnswers = ctypes.c_uint64 * 6
General = ctypes.c_uint64 * 31

_U32, _U64, _SIZE, _BYTES = ctypes.c_uint32, ctypes.c_uint64, ctypes.c_size_t, ctypes.c_void_p
_SLICE = [_BYTES, _SIZE]
_REGISTERS = [General, _U64, *_SLICE, *_SLICE]

# These and include/starshackle.h are kept equal to the source by hand; a test compares the texts. An array is passed as a pointer.
PARAMETERS = {
    "starshackle_decode": [_U32, Fields],
    "starshackle_encode": [Fields, Answers],
    "starshackle_store": [_SIZE, _U64, *_REGISTERS, _U64, *_SLICE, _U32, *_SLICE, StoreAnswers],
    "starshackle_element": [_SIZE, _U64, *_REGISTERS, _U32, _U64, Answers],
    "starshackle_apply": [_U64, *_SLICE, *_SLICE, Answers],
    "starshackle_judge": [*_SLICE, Answers],
    "starshackle_compare": [*_SLICE, *_SLICE, *_SLICE, Answers],
}


def _load() -> ctypes.PyDLL:
    path = os.path.join(os.path.dirname(os.path.abspath(__file__)), "libstarshackle.so")
    if not os.path.exists(path):
        raise ImportError(f"{path} isn't there: make it with python/build")
    library = ctypes.PyDLL(path)  # which holds the interpreter's lock during a call
    for name, parameters in PARAMETERS.items():
        function = getattr(library, name)
        function.argtypes = parameters
        function.restype = ctypes.c_uint64
    return library


library = _load()
