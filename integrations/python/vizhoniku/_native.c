/* The calls of the library for Python.
 *
 * It keeps to the limited API of Python 3.10, so that one build serves each later version. The static library is linked
 * in. Other threads run while a text of RELEASED bytes or more is read. */
#define PY_SSIZE_T_CLEAN
#include <Python.h>

#include <stddef.h>
#include <stdint.h>
#include <string.h>

#include <vizhoniku.h>

/* From how many bytes on other threads run while they are read. */
#define RELEASED 2000

/* Bytes of the stack that a result is written to at first. */
#define SMALL 2048

/* How many parameters a function has at most. */
#define MOST 3

/* How many modes there are. */
#define MODES 4

#define DEFAULT_MODE VIZHONIKU_EXTENDED_JSON

/* What the functions need of Python: the module's own, since there may be several interpreters. These are objects
 * alone, so that it is an array of them too. */
struct state {
  PyObject *mode;         /* the class Mode */
  PyObject *modes[MODES]; /* its members, each at its number */
  PyObject *path_error;
  PyObject *rejection; /* makes a RejectedText */
  PyObject *rejected;  /* the class RejectedText */
  PyObject *text_of;   /* the text of what Key.of and Document.of take */
  PyObject *value_of;  /* the value of a key or a document */
  PyObject *float_of;  /* the float and the int of one that is a number */
  PyObject *int_of;
  PyObject *items_of; /* the items of an array in a slice */
  PyObject *decimal;  /* the class Decimal */
  PyObject *bad_path; /* words */
  PyObject *no_key;
  PyObject *no_document;
  PyObject *no_name;
  PyObject *too_deep;
  PyObject *key_type;
  PyObject *document_type;
  PyObject *stored; /* both types, as a tuple */
  PyObject *parts_type;
  PyObject *kinds[VIZHONIKU_OBJECT + 1]; /* names of kinds */
};

/* The bytes of a text, and the object that holds them. */
struct text {
  const unsigned char *at;
  size_t size;
  PyObject *holder; /* or NULL where the text itself does */
};

/* Raises TypeError, with the name of the object's type in the words. Returns NULL. */
static PyObject *raise_type(const char *words, PyObject *object) {
  PyObject *type = PyObject_GetAttrString((PyObject *)Py_TYPE(object), "__name__");
  if (type) PyErr_Format(PyExc_TypeError, words, type);
  Py_XDECREF(type);
  return NULL;
}

/* Reads a text. Half of a surrogate pair in a str becomes three bytes that aren't UTF-8, which the library rejects at
 * their location. Bytes that another thread can change are copied. Returns 0 where an exception is raised. */
static int read_text(PyObject *object, const char *words, struct text *text) {
  Py_ssize_t size;
  text->holder = NULL;
  if (PyUnicode_Check(object)) {
    text->at = (const unsigned char *)PyUnicode_AsUTF8AndSize(object, &size);
    if (text->at) {
      text->size = (size_t)size;
      return 1;
    }
    if (!PyErr_ExceptionMatches(PyExc_UnicodeEncodeError)) return 0;
    PyErr_Clear();
    text->holder = PyUnicode_AsEncodedString(object, "utf-8", "surrogatepass");
  } else if (PyBytes_Check(object)) {
    Py_INCREF(object);
    text->holder = object;
  } else if (PyByteArray_Check(object) || PyMemoryView_Check(object)) {
    text->holder = PyBytes_FromObject(object);
  } else {
    raise_type(words, object);
  }
  if (!text->holder) return 0;
  text->at = (const unsigned char *)PyBytes_AsString(text->holder);
  text->size = (size_t)PyBytes_Size(text->holder);
  return 1;
}

#define A_TEXT "a text is a str, bytes, a bytearray or a memoryview, and not %U"
#define A_KEY "a key is bytes, a bytearray or a memoryview, and not %U"
#define A_DOCUMENT "a document is bytes, a bytearray or a memoryview, and not %U"

/* Bytes that are written: in `small`, or in memory of Python's. */
struct written {
  unsigned char small[SMALL];
  unsigned char *at;
  size_t capacity, size;
};

static void begin_written(struct written *written) {
  written->at = written->small;
  written->capacity = SMALL;
  written->size = 0;
}

static void free_written(struct written *written) {
  if (written->at != written->small) PyMem_Free(written->at);
}

/* Makes space for so many bytes, which needn't be the same as before. Returns 0 where an exception is raised. */
static int ensure_capacity(struct written *written, size_t capacity) {
  if (capacity <= written->capacity) return 1;
  free_written(written);
  written->at = PyMem_Malloc(capacity);
  if (written->at) {
    written->capacity = capacity;
    return 1;
  }
  begin_written(written);
  PyErr_NoMemory();
  return 0;
}

static PyObject *str_of(const struct written *written) {
  return PyUnicode_FromStringAndSize((const char *)written->at, (Py_ssize_t)written->size);
}

static PyObject *bytes_of(const struct written *written) {
  return PyBytes_FromStringAndSize((const char *)written->at, (Py_ssize_t)written->size);
}

/* What a call of the library does. Behind what is of keys is the same of documents, whose changes are those of keys too.
 * First come those that write nothing, or few bytes of many, and from TEXT on those that write about as many as they
 * take. */
enum what {
  CHECK, IS_VALID, COMPARE, KEY_CHECK, DOCUMENT_CHECK, KEY_CONTAINS, PART, REASON, ERROR_PATH, DOCUMENT_PART,
  DOCUMENT_RANGE, TEXT, TEXT_AND_KEY, SORT_KEY, DOCUMENT, KEY_TEXT, DOCUMENT_TEXT, DOCUMENT_SET, DOCUMENT_REMOVE,
  DOCUMENT_PUT, DOCUMENT_PUSH, DOCUMENT_MERGE
};

/* A call of the library: what it takes, and what it writes. */
struct call {
  enum what what;
  uint32_t mode;
  uint32_t create;
  struct text text; /* or the bytes of a key or a document */
  struct text step; /* a path or a name */
  struct text part; /* what is set, put, pushed, merged, looked for or compared */
  size_t offset, size;
  int32_t order;
  struct vizhoniku_error error;
  struct written written;
  struct written key; /* of a text that is written too */
};

static void begin_call(struct call *call, enum what what) {
  static const struct text none = {NULL, 0, NULL};
  call->what = what;
  call->text = call->step = call->part = none;
  begin_written(&call->written);
  begin_written(&call->key);
}

static void end_call(struct call *call) {
  Py_XDECREF(call->text.holder);
  Py_XDECREF(call->step.holder);
  Py_XDECREF(call->part.holder);
  free_written(&call->written);
  free_written(&call->key);
}

#define IN(text) (text).at, (text).size
#define OUT(written) (written).at, (written).capacity, &(written).size

/* Calls the library once. */
static uint32_t call_once(struct call *call) {
  switch (call->what) {
  case CHECK:
  case IS_VALID:
    return vizhoniku_check(call->mode, IN(call->text), &call->error);
  case COMPARE:
    return vizhoniku_compare(call->mode, IN(call->text), IN(call->part), &call->order, &call->error);
  case KEY_CONTAINS:
    return vizhoniku_key_contains(IN(call->text), IN(call->part));
  case PART:
    return vizhoniku_part(call->mode, IN(call->step), IN(call->text), OUT(call->written), &call->error);
  case REASON:
    return vizhoniku_reason(call->mode, IN(call->text), OUT(call->written));
  case ERROR_PATH:
    return vizhoniku_error_path(call->mode, IN(call->text), &call->error, OUT(call->written));
  case DOCUMENT_PART:
    return vizhoniku_document_part(IN(call->text), IN(call->step), OUT(call->written));
  case DOCUMENT_RANGE:
    return vizhoniku_document_range(IN(call->text), call->offset, call->size, OUT(call->written));
  case TEXT:
    return vizhoniku_text(call->mode, IN(call->text), OUT(call->written), &call->error);
  case TEXT_AND_KEY:
    return vizhoniku_text_and_key(call->mode, IN(call->text), OUT(call->written), OUT(call->key), &call->error);
  case SORT_KEY:
    return vizhoniku_sort_key(call->mode, IN(call->text), OUT(call->written), &call->error);
  case DOCUMENT:
    return vizhoniku_document(call->mode, IN(call->text), OUT(call->written), &call->error);
  case KEY_CHECK:
    return vizhoniku_key_check(IN(call->text));
  case DOCUMENT_CHECK:
    return vizhoniku_document_check(IN(call->text));
  case KEY_TEXT:
    return vizhoniku_key_text(IN(call->text), OUT(call->written));
  case DOCUMENT_TEXT:
    return vizhoniku_document_text(IN(call->text), OUT(call->written));
  case DOCUMENT_SET:
    return vizhoniku_document_set(IN(call->text), IN(call->step), IN(call->part), call->create, OUT(call->written));
  case DOCUMENT_REMOVE:
    return vizhoniku_document_remove(IN(call->text), IN(call->step), OUT(call->written));
  case DOCUMENT_PUT:
    return vizhoniku_document_put(IN(call->text), IN(call->step), IN(call->part), OUT(call->written));
  case DOCUMENT_PUSH:
    return vizhoniku_document_push(IN(call->text), IN(call->part), OUT(call->written));
  case DOCUMENT_MERGE:
    return vizhoniku_document_merge(IN(call->text), IN(call->part), OUT(call->written));
  }
  return VIZHONIKU_UNKNOWN_MODE;
}

/* Calls the library until the buffers are long enough, while other threads run where that many bytes are read. Returns
 * the status. With VIZHONIKU_TOO_SHORT an exception is raised, since there was no memory for a buffer. */
static uint32_t call_library(struct call *call, size_t read) {
  size_t capacity = call->text.size + 2 * call->step.size + call->part.size + 64;
  uint32_t status;
  if (call->what >= TEXT && !ensure_capacity(&call->written, capacity)) return VIZHONIKU_TOO_SHORT;
  if (call->what == TEXT_AND_KEY && !ensure_capacity(&call->key, capacity)) return VIZHONIKU_TOO_SHORT;
  do {
    PyThreadState *thread = read >= RELEASED ? PyEval_SaveThread() : NULL;
    status = call_once(call);
    if (thread) PyEval_RestoreThread(thread);
  } while (status == VIZHONIKU_TOO_SHORT && ensure_capacity(&call->written, call->written.size) &&
           ensure_capacity(&call->key, call->key.size));
  return status;
}

/* The name of a function, and its parameters: how many of them a call has to pass, and their names. */
struct function {
  const char *name;
  enum what what;
  Py_ssize_t least;
  const char *names[MOST + 1];
};

/* Sorts the arguments of a call by the names of the parameters; those that aren't given are NULL. Returns 0 where an
 * exception is raised. */
static int sort_arguments(const struct function *function, PyObject *const *given, Py_ssize_t count, PyObject *keywords,
                          PyObject **arguments) {
  const char *const *names = function->names;
  Py_ssize_t most = 0, named = keywords ? PyTuple_Size(keywords) : 0;
  while (names[most]) arguments[most++] = NULL;
  if (count > most) {
    PyErr_Format(PyExc_TypeError, "%s() takes at most %zd arguments (%zd given)", function->name, most, count + named);
    return 0;
  }
  for (Py_ssize_t i = 0; i < count; i++) arguments[i] = given[i];
  for (Py_ssize_t i = 0; i < named; i++) {
    PyObject *name = PyTuple_GetItem(keywords, i);
    Py_ssize_t at = 0;
    while (at < most && PyUnicode_CompareWithASCIIString(name, names[at])) at++;
    if (at == most || arguments[at]) {
      const char *words = at == most ? "%s() got an unexpected keyword argument '%U'"
                                     : "%s() got multiple values for argument '%U'";
      PyErr_Format(PyExc_TypeError, words, function->name, name);
      return 0;
    }
    arguments[at] = given[count + i];
  }
  for (Py_ssize_t i = 0; i < function->least; i++) {
    if (!arguments[i]) {
      PyErr_Format(PyExc_TypeError, "%s() missing required argument '%s' (pos %zd)", function->name, names[i], i + 1);
      return 0;
    }
  }
  return 1;
}

/* Reads a mode: Mode(4) raises the error of what is none. Returns 0 where an exception is raised. */
static int read_mode(const struct state *state, PyObject *object, uint32_t *mode) {
  *mode = DEFAULT_MODE;
  if (!object) return 1;
  for (*mode = 0; *mode < MODES; ++*mode)
    if (object == state->modes[*mode]) return 1;
  PyObject *member = PyObject_CallFunctionObjArgs(state->mode, object, NULL);
  if (!member) return 0;
  *mode = (uint32_t)PyLong_AsUnsignedLong(member);
  Py_DECREF(member);
  return !PyErr_Occurred();
}

/* Raises what a status says that is neither success nor about a text. With VIZHONIKU_TOO_SHORT an exception is raised
 * already. Returns NULL. */
static PyObject *raise_status(const struct state *state, uint32_t status) {
  if (status == VIZHONIKU_OUT_OF_MEMORY)
    PyErr_NoMemory();
  else if (status == VIZHONIKU_NO_PATH)
    PyErr_SetObject(state->path_error, state->bad_path);
  else if (status == VIZHONIKU_NO_KEY)
    PyErr_SetObject(PyExc_ValueError, state->no_key);
  else if (status == VIZHONIKU_NO_DOCUMENT)
    PyErr_SetObject(PyExc_ValueError, state->no_document);
  else if (status == VIZHONIKU_TOO_DEEP)
    PyErr_SetObject(PyExc_ValueError, state->too_deep);
  else if (status != VIZHONIKU_TOO_SHORT)
    PyErr_Format(PyExc_RuntimeError, "unknown status %u", (unsigned)status);
  return NULL;
}

/* Of a rejected text the words of the library, as bytes, or the path of the innermost item or member at which it was
 * rejected, and None where that can't be reported. */
static PyObject *told_of(struct call *call, enum what what) {
  call->what = what;
  uint32_t status = call_library(call, 0);
  if (status == VIZHONIKU_TOO_SHORT) return NULL;
  if (status == VIZHONIKU_OUT_OF_MEMORY) return PyErr_NoMemory();
  if (what == REASON) return bytes_of(&call->written);
  if (status != VIZHONIKU_ACCEPTED) Py_RETURN_NONE;
  return PyUnicode_DecodeUTF8((const char *)call->written.at, (Py_ssize_t)call->written.size, "replace");
}

/* Raises RejectedText for the text of a call, which is that of the object. Returns NULL. */
static PyObject *raise_rejected(const struct state *state, struct call *call, PyObject *object) {
  struct vizhoniku_location location;
  vizhoniku_locate(IN(call->text), &call->error, &location);
  PyObject *words = told_of(call, REASON);
  PyObject *path = words ? told_of(call, ERROR_PATH) : NULL;
  PyObject *raised = !path ? NULL : PyObject_CallFunction(
      state->rejection, "Oy#OIInnnO", object, (const char *)call->text.at, (Py_ssize_t)call->text.size, words,
      call->error.code, call->error.which, (Py_ssize_t)location.index, (Py_ssize_t)location.line,
      (Py_ssize_t)location.column, path);
  Py_XDECREF(words);
  Py_XDECREF(path);
  if (raised) PyErr_SetObject((PyObject *)Py_TYPE(raised), raised);
  Py_XDECREF(raised);
  return NULL;
}

/* What a function returns whose call was accepted. */
static PyObject *made_by(const struct call *call) {
  switch (call->what) {
  case CHECK:
    Py_RETURN_NONE;
  case COMPARE:
    return PyLong_FromLong(call->order);
  case SORT_KEY:
  case DOCUMENT:
    return bytes_of(&call->written);
  case TEXT_AND_KEY:
    return Py_BuildValue("(NN)", str_of(&call->written), bytes_of(&call->key));
  default:
    return str_of(&call->written);
  }
}

/* Calls the library with the texts of one or two objects. Returns what the function does. */
static PyObject *call_with_texts(const struct state *state, struct call *call, PyObject *const *objects) {
  uint32_t status = call_library(call, call->text.size + call->part.size);
  if (call->what == IS_VALID && status <= VIZHONIKU_REJECTED) return PyBool_FromLong(status == VIZHONIKU_ACCEPTED);
  if (status == VIZHONIKU_ACCEPTED) return made_by(call);
  if (status == VIZHONIKU_NO_PART) Py_RETURN_NONE;
  if (status != VIZHONIKU_REJECTED) return raise_status(state, status);
  if (call->error.which != 2) return raise_rejected(state, call, objects[0]);
  struct text first = call->text;
  call->text = call->part;
  call->part = first;
  return raise_rejected(state, call, objects[1]);
}

/* A function of one or two texts, the second of which may be a path, and perhaps of a mode. */
static PyObject *of_texts(const struct state *state, const struct function *function, PyObject *const *given,
                          Py_ssize_t count, PyObject *keywords) {
  PyObject *arguments[MOST], *result = NULL;
  struct call call;
  if (!sort_arguments(function, given, count, keywords, arguments)) return NULL;
  begin_call(&call, function->what);
  struct text *second = function->what == PART ? &call.step : &call.part;
  if (read_mode(state, arguments[function->least], &call.mode) && read_text(arguments[0], A_TEXT, &call.text) &&
      (function->least == 1 || read_text(arguments[1], A_TEXT, second)))
    result = call_with_texts(state, &call, arguments);
  end_call(&call);
  return result;
}

#define OF_TEXTS(name, ...) \
  static PyObject *py_##name(PyObject *module, PyObject *const *given, Py_ssize_t count, PyObject *keywords) { \
    static const struct function function = {#name, __VA_ARGS__}; \
    return of_texts(PyModule_GetState(module), &function, given, count, keywords); \
  }

OF_TEXTS(check, CHECK, 1, {"text", "mode", NULL})
OF_TEXTS(is_valid, IS_VALID, 1, {"text", "mode", NULL})
OF_TEXTS(text, TEXT, 1, {"text", "mode", NULL})
OF_TEXTS(sort_key, SORT_KEY, 1, {"text", "mode", NULL})
OF_TEXTS(text_and_key, TEXT_AND_KEY, 1, {"text", "mode", NULL})
OF_TEXTS(get, PART, 2, {"text", "path", "mode", NULL})
OF_TEXTS(compare, COMPARE, 2, {"left", "right", "mode", NULL})

/* The sort key or the document of a text, as bytes. */
static PyObject *data_of_text(const struct state *state, enum what what, PyObject *object, uint32_t mode) {
  struct call call;
  PyObject *result = NULL;
  begin_call(&call, what);
  call.mode = mode;
  if (read_text(object, A_TEXT, &call.text)) result = call_with_texts(state, &call, &object);
  end_call(&call);
  return result;
}

/* A document as its sort key, or with the zeros that end its decimals behind that: Key or Document. */
struct key {
  PyObject_HEAD
  PyObject *data; /* bytes, which are a sort key or a document */
};

/* An array or an object that is walked through. */
struct parts {
  PyObject_HEAD
  PyObject *data;
  size_t size;    /* how many of the bytes are walked through: all of them, or those of the key */
  int has_digits; /* whether the parts are documents, by a cursor of documents; else only its first field counts */
  int has_values; /* whether members come with their values */
  struct vizhoniku_document_cursor next;
};

static const struct state *state_of(PyObject *self) { return PyType_GetModuleState(Py_TYPE(self)); }

static int is_document(PyObject *self) { return Py_TYPE(self) == (PyTypeObject *)state_of(self)->document_type; }

static struct text text_in(PyObject *data) {
  struct text text = {(const unsigned char *)PyBytes_AsString(data), (size_t)PyBytes_Size(data), NULL};
  return text;
}

/* The bytes of a key or a document. */
static struct text bytes_in(PyObject *self) { return text_in(((struct key *)self)->data); }

/* The bytes of the key that a key is, or that a document begins with. */
static struct text key_in(PyObject *self) {
  struct text key = bytes_in(self);
  if (is_document(self)) key.size = vizhoniku_document_key(IN(key));
  return key;
}

/* Makes a key or a document of bytes, to which it takes the caller's reference. */
static PyObject *make_stored(PyTypeObject *type, PyObject *data) {
  if (!data) return NULL;
  allocfunc allocate = (allocfunc)PyType_GetSlot(type, Py_tp_alloc);
  PyObject *self = allocate(type, 0);
  if (self)
    ((struct key *)self)->data = data;
  else
    Py_DECREF(data);
  return self;
}

static PyObject *make_key(const struct state *state, PyObject *data) {
  return make_stored((PyTypeObject *)state->key_type, data);
}

static PyObject *make_key_of(const struct state *state, const unsigned char *at, size_t size) {
  return make_key(state, PyBytes_FromStringAndSize((const char *)at, (Py_ssize_t)size));
}

/* What makes an object of a type: SORT_KEY of a key, DOCUMENT of a document. */
static enum what what_of(const struct state *state, PyTypeObject *type) {
  return type == (PyTypeObject *)state->document_type ? DOCUMENT : SORT_KEY;
}

static PyObject *key_new(PyTypeObject *type, PyObject *given, PyObject *keywords) {
  static char *names[] = {"text", "mode", NULL};
  const struct state *state = PyType_GetModuleState(type);
  enum what what = what_of(state, type);
  const char *format = what == DOCUMENT ? "O|O:Document" : "O|O:Key";
  PyObject *object, *mode_object = NULL;
  uint32_t mode;
  if (!PyArg_ParseTupleAndKeywords(given, keywords, format, names, &object, &mode_object)) return NULL;
  return read_mode(state, mode_object, &mode) ? make_stored(type, data_of_text(state, what, object, mode)) : NULL;
}

/* What holds an object of bytes, and no cycle. */
static void free_with_data(PyObject *self, PyObject *data) {
  PyTypeObject *type = Py_TYPE(self);
  Py_XDECREF(data);
  ((freefunc)PyType_GetSlot(type, Py_tp_free))(self);
  Py_DECREF(type);
}

static void key_free(PyObject *self) { free_with_data(self, ((struct key *)self)->data); }

static void parts_free(PyObject *self) { free_with_data(self, ((struct parts *)self)->data); }

/* Reads the arguments of a call of one object. Returns it, or NULL where an exception is raised. */
static PyObject *read_one(const char *function, const char *name, PyObject *const *given, Py_ssize_t count,
                          PyObject *keywords) {
  const struct function of_one = {function, 0, 1, {name, NULL}};
  PyObject *arguments[MOST];
  return sort_arguments(&of_one, given, count, keywords, arguments) ? arguments[0] : NULL;
}

/* The key or the document of bytes, which are checked where `what` isn't DOCUMENT_TEXT. */
static PyObject *of_bytes(PyTypeObject *type, const char *function, enum what what, PyObject *const *given,
                          Py_ssize_t count, PyObject *keywords) {
  PyObject *object = read_one(function, "data", given, count, keywords), *data = NULL;
  const char *words = what == KEY_CHECK ? A_KEY : A_DOCUMENT;
  struct call call;
  if (!object) return NULL;
  if (PyUnicode_Check(object)) return raise_type(words, object);
  begin_call(&call, what);
  if (!read_text(object, words, &call.text)) return NULL;
  uint32_t status = what == DOCUMENT_TEXT ? VIZHONIKU_ACCEPTED : call_library(&call, call.text.size);
  if (status == VIZHONIKU_ACCEPTED) {
    data = call.text.holder;
    Py_INCREF(data);
  } else {
    raise_status(PyType_GetModuleState(type), status);
  }
  end_call(&call);
  return make_stored(type, data);
}

#define OF_BYTES(name, function, what) \
  static PyObject *name(PyObject *type, PyObject *const *given, Py_ssize_t count, PyObject *keywords) { \
    return of_bytes((PyTypeObject *)type, function, what, given, count, keywords); \
  }

OF_BYTES(key_from_bytes, "from_bytes", KEY_CHECK)
OF_BYTES(document_from_bytes, "from_bytes", DOCUMENT_CHECK)
OF_BYTES(document_from_trusted_bytes, "from_trusted_bytes", DOCUMENT_TEXT)

static PyObject *key_bytes(PyObject *self, PyObject *none) {
  (void)none;
  Py_INCREF(((struct key *)self)->data);
  return ((struct key *)self)->data;
}

static PyObject *key_reduce(PyObject *self, PyObject *none) {
  (void)none;
  PyObject *from_bytes = PyObject_GetAttrString((PyObject *)Py_TYPE(self), "from_bytes");
  return from_bytes ? Py_BuildValue("N(O)", from_bytes, ((struct key *)self)->data) : NULL;
}

/* A key or a document doesn't change, so that it is its own copy. */
static PyObject *key_copy(PyObject *self, PyObject *unused) {
  (void)unused;
  Py_INCREF(self);
  return self;
}

static uint32_t kind_of(PyObject *self) {
  struct text key = bytes_in(self);
  return vizhoniku_key_kind(IN(key));
}

static PyObject *key_kind(PyObject *self, void *unused) {
  (void)unused;
  PyObject *kind = state_of(self)->kinds[kind_of(self)];
  Py_INCREF(kind);
  return kind;
}

/* The key of a document. */
static PyObject *document_key(PyObject *self, void *unused) {
  PyObject *data = ((struct key *)self)->data;
  struct text key = key_in(self);
  (void)unused;
  if (key.size < (size_t)PyBytes_Size(data)) return make_key_of(state_of(self), key.at, key.size);
  Py_INCREF(data);
  return make_key(state_of(self), data);
}

static PyObject *key_py_text(PyObject *self, PyObject *none) {
  struct call call;
  (void)none;
  begin_call(&call, KEY_TEXT + is_document(self));
  call.text = bytes_in(self);
  uint32_t status = call_library(&call, call.text.size);
  PyObject *text = status == VIZHONIKU_ACCEPTED ? str_of(&call.written) : raise_status(state_of(self), status);
  end_call(&call);
  return text;
}

/* What follows from a status that isn't success: `absent` where there is no part, else NULL. */
static PyObject *not_found(const struct state *state, uint32_t status, PyObject *absent) {
  if (status != VIZHONIKU_NO_PART) return raise_status(state, status);
  Py_INCREF(absent);
  return absent;
}

/* The key or the document that a call writes, or `absent`. Ends the call. */
static PyObject *stored_by(PyObject *self, struct call *call, size_t read, PyObject *absent) {
  uint32_t status = call_library(call, read);
  PyObject *result = NULL;
  if (status == VIZHONIKU_ACCEPTED)
    result = make_stored(Py_TYPE(self), bytes_of(&call->written));
  else if (status == VIZHONIKU_NO_PATH && call->what == DOCUMENT_PUT)
    PyErr_SetObject(PyExc_ValueError, state_of(self)->no_name);
  else
    result = not_found(state_of(self), status, absent);
  end_call(call);
  return result;
}

/* The part that a call found in the key, or `absent`. */
static PyObject *found(PyObject *self, uint32_t status, size_t offset, size_t size, PyObject *absent) {
  struct call call;
  if (status != VIZHONIKU_ACCEPTED) return not_found(state_of(self), status, absent);
  if (!is_document(self)) return make_key_of(state_of(self), bytes_in(self).at + offset, size);
  begin_call(&call, DOCUMENT_RANGE);
  call.text = bytes_in(self);
  call.offset = offset;
  call.size = size;
  return stored_by(self, &call, 0, absent);
}

static PyObject *key_get(PyObject *self, PyObject *const *given, Py_ssize_t count, PyObject *keywords) {
  static const struct function function = {"get", DOCUMENT_PART, 1, {"path", "default", NULL}};
  PyObject *arguments[MOST];
  struct text key = bytes_in(self), path;
  size_t offset = 0, size = 0;
  if (!sort_arguments(&function, given, count, keywords, arguments) || !read_text(arguments[0], A_TEXT, &path))
    return NULL;
  PyObject *absent = arguments[1] ? arguments[1] : Py_None;
  if (is_document(self)) {
    struct call call;
    begin_call(&call, DOCUMENT_PART);
    call.text = key;
    call.step = path;
    return stored_by(self, &call, key.size, absent);
  }
  uint32_t status = vizhoniku_key_part(IN(key), IN(path), &offset, &size);
  Py_XDECREF(path.holder);
  return found(self, status, offset, size, absent);
}

/* Raises TypeError unless the kind of a key or a document is one of two. Returns the kind, or 0 where an exception is
 * raised. */
static uint32_t need_kind(PyObject *self, uint32_t one, uint32_t other) {
  const struct state *state = state_of(self);
  uint32_t kind = kind_of(self);
  if (kind == one || kind == other) return kind;
  if (!kind && is_document(self))
    raise_status(state, VIZHONIKU_NO_DOCUMENT);
  else if (one == other)
    PyErr_Format(PyExc_TypeError, "%U is no %U", state->kinds[kind], state->kinds[one]);
  else
    PyErr_Format(PyExc_TypeError, "%U is no %U and no %U", state->kinds[kind], state->kinds[one], state->kinds[other]);
  return VIZHONIKU_NO_KIND;
}

/* Finds the range of a member in the key. Returns the status, or -1 where an exception is raised. */
static int64_t find_member(PyObject *self, PyObject *object, size_t *offset, size_t *size) {
  struct text key = key_in(self), name;
  if (!read_text(object, A_TEXT, &name)) return -1;
  uint32_t status = vizhoniku_key_member(IN(key), IN(name), offset, size);
  Py_XDECREF(name.holder);
  return status;
}

/* The member of a name, or None. */
static PyObject *member_of(PyObject *self, PyObject *name) {
  size_t offset = 0, size = 0;
  int64_t status = find_member(self, name, &offset, &size);
  return status < 0 ? NULL : found(self, (uint32_t)status, offset, size, Py_None);
}

/* The item of an index, or None. */
static PyObject *item_of(PyObject *self, PyObject *object) {
  struct text key = key_in(self);
  size_t offset = 0, size = 0;
  long long index = PyLong_AsLongLong(object);
  if (index == -1 && PyErr_Occurred()) {
    if (!PyErr_ExceptionMatches(PyExc_OverflowError)) return NULL;
    PyErr_Clear();
    Py_RETURN_NONE;
  }
  uint32_t status = vizhoniku_key_item(IN(key), index, &offset, &size);
  return found(self, status, offset, size, Py_None);
}

static PyObject *key_subscript(PyObject *self, PyObject *which) {
  PyObject *part;
  int is_name = PyUnicode_Check(which), is_slice = PySlice_Check(which);
  uint32_t wanted = is_name ? VIZHONIKU_OBJECT : VIZHONIKU_ARRAY;
  if (!is_name && !is_slice && !PyLong_Check(which))
    return raise_type("a name is a str and an index an int, and not %U", which);
  if (!need_kind(self, wanted, wanted)) return NULL;
  if (is_slice) return PyObject_CallFunctionObjArgs(state_of(self)->items_of, self, which, NULL);
  part = is_name ? member_of(self, which) : item_of(self, which);
  if (part != Py_None) return part;
  Py_DECREF(part);
  if (is_name)
    PyErr_SetObject(PyExc_KeyError, which);
  else
    PyErr_SetString(PyExc_IndexError, "the array has no such item");
  return NULL;
}

static Py_ssize_t key_length(PyObject *self) {
  struct text key = key_in(self);
  size_t count;
  if (!need_kind(self, VIZHONIKU_ARRAY, VIZHONIKU_OBJECT)) return -1;
  uint32_t status = vizhoniku_key_count(IN(key), &count);
  if (status == VIZHONIKU_ACCEPTED) return (Py_ssize_t)count;
  raise_status(state_of(self), status);
  return -1;
}

/* What a function of the package makes of a number. */
static PyObject *of_number(PyObject *self, PyObject *function) {
  if (!need_kind(self, VIZHONIKU_NUMBER, VIZHONIKU_NUMBER)) return NULL;
  return PyObject_CallFunctionObjArgs(function, self, NULL);
}

static PyObject *key_float(PyObject *self) { return of_number(self, state_of(self)->float_of); }

static PyObject *key_int(PyObject *self) { return of_number(self, state_of(self)->int_of); }

static int key_truth(PyObject *self) {
  (void)self;
  return 1;
}

static int has_member(PyObject *self, PyObject *name) {
  if (!PyUnicode_Check(name)) {
    raise_type("a name is a str, and not %U", name);
    return -1;
  }
  size_t offset = 0, size = 0;
  int64_t status = find_member(self, name, &offset, &size);
  if (status == VIZHONIKU_ACCEPTED || status == VIZHONIKU_NO_PART) return status == VIZHONIKU_ACCEPTED;
  if (status >= 0) raise_status(state_of(self), (uint32_t)status);
  return -1;
}

/* Whether a key has an item of the same bytes, none of which is copied. */
static int key_has_item(PyObject *self, PyObject *item) {
  struct text key = bytes_in(self), wanted = bytes_in(item);
  struct vizhoniku_key_cursor cursor;
  struct vizhoniku_key_entry entry;
  uint32_t status = vizhoniku_key_begin(IN(key), &cursor);
  while (status == VIZHONIKU_ACCEPTED) {
    status = vizhoniku_key_next(IN(key), &cursor, &entry);
    if (status == VIZHONIKU_ACCEPTED && entry.size == wanted.size &&
        !memcmp(key.at + entry.offset, wanted.at, wanted.size))
      return 1;
  }
  if (status == VIZHONIKU_NO_PART) return 0;
  raise_status(state_of(self), status);
  return -1;
}

static PyObject *key_compare(PyObject *self, PyObject *other, int operator) {
  if (Py_TYPE(other) != Py_TYPE(self)) Py_RETURN_NOTIMPLEMENTED;
  return PyObject_RichCompare(((struct key *)self)->data, ((struct key *)other)->data, operator);
}

static Py_hash_t key_hash(PyObject *self) { return PyObject_Hash(((struct key *)self)->data); }

static PyObject *key_repr(PyObject *self) {
  PyObject *text = key_py_text(self, NULL);
  if (!text) {
    if (!is_document(self) || !PyErr_ExceptionMatches(PyExc_ValueError)) return NULL;
    PyErr_Clear();
    return PyUnicode_FromFormat("Document.from_trusted_bytes(%R)", ((struct key *)self)->data);
  }
  PyObject *result = PyUnicode_FromFormat(is_document(self) ? "Document(%R)" : "Key(%R)", text);
  Py_DECREF(text);
  return result;
}

/* Names alone are walked through in the key also of a document. */
static PyObject *make_parts(PyObject *self, int has_values) {
  const struct state *state = state_of(self);
  PyObject *data = ((struct key *)self)->data;
  int has_digits = is_document(self) && (has_values || kind_of(self) == VIZHONIKU_ARRAY);
  struct text walked = has_digits ? bytes_in(self) : key_in(self);
  struct vizhoniku_document_cursor next = {{0, 0}, 0, 0, 0};
  uint32_t status = has_digits ? vizhoniku_document_begin(IN(walked), &next)
                               : vizhoniku_key_begin(IN(walked), &next.parts);
  if (status != VIZHONIKU_ACCEPTED) return raise_status(state, status);
  allocfunc allocate = (allocfunc)PyType_GetSlot((PyTypeObject *)state->parts_type, Py_tp_alloc);
  struct parts *parts = (struct parts *)allocate((PyTypeObject *)state->parts_type, 0);
  if (!parts) return NULL;
  Py_INCREF(data);
  parts->data = data;
  parts->size = walked.size;
  parts->has_digits = has_digits;
  parts->has_values = has_values;
  parts->next = next;
  return (PyObject *)parts;
}

static PyObject *key_iterate(PyObject *self) {
  return need_kind(self, VIZHONIKU_ARRAY, VIZHONIKU_OBJECT) ? make_parts(self, 0) : NULL;
}

/* The same from the last one on. By an index each part would be looked for from the first one. */
static PyObject *key_reversed(PyObject *self, PyObject *none) {
  (void)none;
  PyObject *list = PySequence_List(self);
  if (!list) return NULL;
  PyObject *result = PyObject_CallMethod(list, "__reversed__", NULL);
  Py_DECREF(list);
  return result;
}

static PyObject *key_items(PyObject *self, PyObject *none) {
  (void)none;
  return need_kind(self, VIZHONIKU_OBJECT, VIZHONIKU_OBJECT) ? make_parts(self, 1) : NULL;
}

static int document_has_item(PyObject *self, PyObject *item) {
  PyObject *parts = make_parts(self, 0);
  int is_there = parts ? PySequence_Contains(parts, item) : -1;
  Py_XDECREF(parts);
  return is_there;
}

static int key_contains(PyObject *self, PyObject *part) {
  int has_digits = is_document(self);
  uint32_t kind = need_kind(self, VIZHONIKU_ARRAY, VIZHONIKU_OBJECT);
  if (!kind) return -1;
  if (kind == VIZHONIKU_OBJECT) return has_member(self, part);
  if (Py_TYPE(part) == Py_TYPE(self)) return has_digits ? document_has_item(self, part) : key_has_item(self, part);
  raise_type(has_digits ? "an item is a Document, and not %U" : "an item is a Key, and not %U", part);
  return -1;
}

static PyObject *parts_iterate(PyObject *self) {
  Py_INCREF(self);
  return self;
}

static PyObject *name_of(const struct state *state, const unsigned char *at, size_t size) {
  struct written name;
  begin_written(&name);
  if (!ensure_capacity(&name, size)) return NULL;
  uint32_t status = vizhoniku_key_name(at, size, OUT(name));
  PyObject *result = status == VIZHONIKU_ACCEPTED ? str_of(&name) : raise_status(state, status);
  free_written(&name);
  return result;
}

/* Moves on to the next part, whose document is written where the parts are documents. */
static uint32_t walk(struct parts *parts, struct vizhoniku_key_entry *entry, struct written *document) {
  struct text walked = text_in(parts->data);
  uint32_t status;
  walked.size = parts->size;
  if (!parts->has_digits) return vizhoniku_key_next(IN(walked), &parts->next.parts, entry);
  do {
    status = vizhoniku_document_next(IN(walked), &parts->next, entry, OUT(*document));
  } while (status == VIZHONIKU_TOO_SHORT && ensure_capacity(document, document->size));
  return status;
}

/* An item, a name, or a name with its value. */
static PyObject *entry_of(PyObject *self, const struct vizhoniku_key_entry *entry, const struct written *document) {
  const struct state *state = state_of(self);
  const struct parts *parts = (const struct parts *)self;
  struct text key = text_in(parts->data);
  PyObject *name = NULL, *value;
  if (entry->name_size) {
    name = name_of(state, key.at + entry->name_offset, entry->name_size);
    if (!name || !parts->has_values) return name;
  }
  value = parts->has_digits ? make_stored((PyTypeObject *)state->document_type, bytes_of(document))
                            : make_key_of(state, key.at + entry->offset, entry->size);
  if (!name) return value;
  if (value) return Py_BuildValue("(NN)", name, value);
  Py_DECREF(name);
  return NULL;
}

static PyObject *parts_next(PyObject *self) {
  struct vizhoniku_key_entry entry;
  struct written document;
  PyObject *result = NULL;
  begin_written(&document);
  uint32_t status = walk((struct parts *)self, &entry, &document);
  if (status == VIZHONIKU_ACCEPTED)
    result = entry_of(self, &entry, &document);
  else if (status != VIZHONIKU_NO_PART)
    raise_status(state_of(self), status);
  free_written(&document);
  return result;
}

/* Appends bytes. Returns 0 where there is no memory for them. */
static int put(struct written *out, const void *bytes, size_t size) {
  if (size > out->capacity - out->size) {
    size_t capacity = 2 * out->capacity + size;
    unsigned char *at = out->at == out->small ? PyMem_Malloc(capacity) : PyMem_Realloc(out->at, capacity);
    if (!at) return 0;
    if (out->at == out->small) memcpy(at, out->small, out->size);
    out->at = at;
    out->capacity = capacity;
  }
  memcpy(out->at + out->size, bytes, size);
  out->size += size;
  return 1;
}

/* Appends a string in quotes. Returns 0 where it isn't of the type str, or isn't UTF-8. */
static int put_string(struct written *out, PyObject *string) {
  static const char digits[] = "0123456789abcdef";
  Py_ssize_t size, from = 0;
  const char *text = PyUnicode_CheckExact(string) ? PyUnicode_AsUTF8AndSize(string, &size) : NULL;
  if (!text || !put(out, "\"", 1)) return 0;
  for (Py_ssize_t i = 0; i < size; i++) {
    unsigned char byte = (unsigned char)text[i];
    if (byte >= ' ' && byte != '"' && byte != '\\') continue;
    char escape[] = {'\\', 'u', '0', '0', digits[byte >> 4], digits[byte & 15]};
    if (!put(out, text + from, (size_t)(i - from)) || !put(out, escape, sizeof escape)) return 0;
    from = i + 1;
  }
  return put(out, text + from, (size_t)(size - from)) && put(out, "\"", 1);
}

/* Appends the words of a number, which str or repr returned. Returns 0 where they are those of none. */
static int put_words(struct written *out, PyObject *words) {
  Py_ssize_t size = 0;
  const char *text = words ? PyUnicode_AsUTF8AndSize(words, &size) : NULL;
  int is_put = size && text[text[0] == '-'] <= '9' && put(out, text, (size_t)size);
  Py_XDECREF(words);
  return is_put;
}

/* Appends a scalar. Returns 0 where it isn't of the usual types, or there is no text of it. */
static int put_scalar(const struct state *state, struct written *out, PyObject *value) {
  if (value == Py_None) return put(out, "null", 4);
  if (value == Py_True) return put(out, "true", 4);
  if (value == Py_False) return put(out, "false", 5);
  if (PyUnicode_CheckExact(value)) return put_string(out, value);
  if (PyLong_CheckExact(value) || PyFloat_CheckExact(value)) return put_words(out, PyObject_Repr(value));
  return Py_TYPE(value) == (PyTypeObject *)state->decimal && put_words(out, PyObject_Str(value));
}

/* A dict, list or tuple that is written, and which part of it comes next. */
struct level {
  PyObject *container;
  Py_ssize_t next;
};

/* Finds the next part, and its name in a dict, else NULL. Returns 0 where there is none any more. */
static int next_part(struct level *level, PyObject **name, PyObject **part) {
  PyObject *container = level->container;
  *name = NULL;
  if (PyDict_CheckExact(container)) return PyDict_Next(container, &level->next, name, part);
  int is_list = PyList_CheckExact(container);
  if (level->next >= (is_list ? PyList_Size(container) : PyTuple_Size(container))) return 0;
  *part = is_list ? PyList_GetItem(container, level->next) : PyTuple_GetItem(container, level->next);
  level->next++;
  return 1;
}

/* Levels of a value at most. */
#define DEPTH 512

/* Appends a scalar, or begins with what has parts. Returns 0 where the value isn't a usual one. */
static int put_value(const struct state *state, struct written *out, PyObject *value, struct level *levels,
                     size_t *depth) {
  int is_dict = PyDict_CheckExact(value), is_put = 1;
  Py_INCREF(value);
  if (is_dict || PyList_CheckExact(value) || PyTuple_CheckExact(value)) {
    if (*depth < DEPTH && put(out, is_dict ? "{" : "[", 1)) {
      levels[(*depth)++] = (struct level){value, 0};
      return 1;
    }
    is_put = 0;
  }
  is_put = is_put && put_scalar(state, out, value);
  Py_DECREF(value);
  return is_put;
}

/* Appends the JSON text of a value of the usual types. Returns 0 where it has others, or no text: the package's text_of
 * says what is wrong, if anything is. It doesn't call itself. */
static int put_usual(const struct state *state, struct written *out, PyObject *value) {
  struct level levels[DEPTH];
  size_t depth = 0;
  int is_put = put_value(state, out, value, levels, &depth);
  while (is_put && depth) {
    struct level *level = &levels[depth - 1];
    PyObject *name, *part;
    if (next_part(level, &name, &part)) {
      int is_first = out->at[out->size - 1] == '[' || out->at[out->size - 1] == '{';
      is_put = (is_first || put(out, ",", 1)) && (!name || (put_string(out, name) && put(out, ":", 1))) &&
               put_value(state, out, part, levels, &depth);
    } else {
      is_put = put(out, PyDict_CheckExact(level->container) ? "}" : "]", 1);
      Py_DECREF(level->container);
      depth--;
    }
  }
  while (depth) Py_DECREF(levels[--depth].container);
  return is_put;
}

/* The bytes of the key or the document of a value of the usual types, or NULL, also where an exception is raised. */
static PyObject *data_of_usual(const struct state *state, enum what what, PyObject *value) {
  struct written text;
  struct call call;
  PyObject *data = NULL;
  begin_written(&text);
  if (put_usual(state, &text, value)) {
    begin_call(&call, what);
    call.mode = DEFAULT_MODE;
    call.text.at = text.at;
    call.text.size = text.size;
    if (call_library(&call, text.size) == VIZHONIKU_ACCEPTED) data = bytes_of(&call.written);
    end_call(&call);
  }
  free_written(&text);
  return data;
}

/* The bytes of a key or a document: all, or of a document those of its key. NULL for another object, and where an
 * exception is raised. */
static PyObject *data_of_stored(const struct state *state, enum what what, PyObject *value) {
  PyTypeObject *type = Py_TYPE(value);
  if (type != (PyTypeObject *)state->key_type && type != (PyTypeObject *)state->document_type) return NULL;
  PyObject *data = ((struct key *)value)->data;
  struct text key = what == SORT_KEY ? key_in(value) : bytes_in(value);
  if (key.size < (size_t)PyBytes_Size(data))
    return PyBytes_FromStringAndSize((const char *)key.at, (Py_ssize_t)key.size);
  Py_INCREF(data);
  return data;
}

/* The bytes of a key or a document, or of what Key.of or Document.of makes of another value. */
static PyObject *data_of(const struct state *state, enum what what, PyObject *value) {
  PyObject *data = data_of_stored(state, what, value);
  if (data || PyErr_Occurred()) return data;
  data = data_of_usual(state, what, value);
  if (data) return data;
  PyErr_Clear();
  PyObject *text = PyObject_CallFunctionObjArgs(state->text_of, value, state->stored,
                                                what == DOCUMENT ? Py_True : Py_False, NULL);
  if (!text) return NULL;
  data = data_of_text(state, what, text, DEFAULT_MODE);
  Py_DECREF(text);
  if (data || !PyErr_ExceptionMatches(state->rejected)) return data;
  /* Of a key or a document in the value, whose arrays and objects are within those of the value. */
  PyErr_Clear();
  PyErr_SetObject(PyExc_ValueError, state->too_deep);
  return NULL;
}

/* Reads a key or a document, or a value that Key.of or Document.of takes. Returns 0 where an exception is raised. */
static int read_value(const struct state *state, enum what what, PyObject *value, struct text *text) {
  PyObject *data = data_of(state, what, value);
  if (!data) return 0;
  *text = text_in(data);
  text->holder = data;
  return 1;
}

static PyObject *key_of(PyObject *type, PyObject *const *given, Py_ssize_t count, PyObject *keywords) {
  const struct state *state = PyType_GetModuleState((PyTypeObject *)type);
  enum what what = what_of(state, (PyTypeObject *)type);
  PyObject *value = read_one("of", "value", given, count, keywords);
  if (!value) return NULL;
  if (Py_TYPE(value) != (PyTypeObject *)type) return make_stored((PyTypeObject *)type, data_of(state, what, value));
  Py_INCREF(value);
  return value;
}

static PyObject *key_value(PyObject *self, PyObject *none) {
  (void)none;
  return PyObject_CallFunctionObjArgs(state_of(self)->value_of, self, NULL);
}

static PyObject *key_py_contains(PyObject *self, PyObject *const *given, Py_ssize_t count, PyObject *keywords) {
  PyObject *value = read_one("contains", "other", given, count, keywords), *result = NULL;
  struct call call;
  if (!value) return NULL;
  begin_call(&call, KEY_CONTAINS);
  call.text = key_in(self);
  if (read_value(state_of(self), SORT_KEY, value, &call.part)) {
    uint32_t status = call_library(&call, call.text.size);
    int is_told = status == VIZHONIKU_ACCEPTED || status == VIZHONIKU_NO_PART;
    result = is_told ? PyBool_FromLong(status == VIZHONIKU_ACCEPTED) : raise_status(state_of(self), status);
  }
  end_call(&call);
  return result;
}

/* A changed key or document, or the same where nothing changes. First of the parameters is the path or the name, where
 * the change has one, and then comes the value. */
static PyObject *changed(PyObject *self, const struct function *change, PyObject *const *given, Py_ssize_t count,
                         PyObject *keywords) {
  enum what what = change->what, read = SORT_KEY + is_document(self);
  int has_step = what == DOCUMENT_SET || what == DOCUMENT_REMOVE || what == DOCUMENT_PUT, create = 1;
  PyObject *arguments[MOST];
  struct call call;
  if (!sort_arguments(change, given, count, keywords, arguments)) return NULL;
  if (what == DOCUMENT_PUT && !PyUnicode_Check(arguments[0]))
    return raise_type("a name is a str, and not %U", arguments[0]);
  if (what == DOCUMENT_PUT && !need_kind(self, VIZHONIKU_OBJECT, VIZHONIKU_OBJECT)) return NULL;
  if (what == DOCUMENT_PUSH && !need_kind(self, VIZHONIKU_ARRAY, VIZHONIKU_ARRAY)) return NULL;
  if (what == DOCUMENT_SET && arguments[2] && (create = PyObject_IsTrue(arguments[2])) < 0) return NULL;
  begin_call(&call, what);
  call.text = bytes_in(self);
  call.create = (uint32_t)create;
  if ((!has_step || read_text(arguments[0], A_TEXT, &call.step)) &&
      (what == DOCUMENT_REMOVE || read_value(state_of(self), read, arguments[has_step], &call.part)))
    return stored_by(self, &call, call.text.size, self);
  end_call(&call);
  return NULL;
}

#define CHANGE(name, ...) \
  static PyObject *key_##name(PyObject *self, PyObject *const *given, Py_ssize_t count, PyObject *keywords) { \
    static const struct function change = {#name, __VA_ARGS__}; \
    return changed(self, &change, given, count, keywords); \
  }

CHANGE(set, DOCUMENT_SET, 2, {"path", "value", "create", NULL})
CHANGE(remove, DOCUMENT_REMOVE, 1, {"path", NULL})
CHANGE(put, DOCUMENT_PUT, 2, {"name", "value", NULL})
CHANGE(push, DOCUMENT_PUSH, 1, {"item", NULL})
CHANGE(merge, DOCUMENT_MERGE, 1, {"other", NULL})

/* ISO C has no pointer to void for a function; Python's slots ask for it, as POSIX does. */
#define SLOT(call) ((void *)(uintptr_t)(call))

#define CALL(call) ((PyCFunction)(void (*)(void))(call)), METH_FASTCALL | METH_KEYWORDS

/* What help() says of a call: its parameters, as inspect.signature reads them, and words. */
#define HELP(signature, words) signature "\n--\n\n" words

/* What keys and documents have in common: methods, and slots. */
#define STORED_METHODS \
  {"__bytes__", key_bytes, METH_NOARGS, HELP("__bytes__($self)", "The bytes that from_bytes takes.")}, \
  {"__reduce__", key_reduce, METH_NOARGS, HELP("__reduce__($self)", "For pickle.")}, \
  {"__copy__", key_copy, METH_NOARGS, HELP("__copy__($self)", "The same, since it doesn't change.")}, \
  {"__deepcopy__", key_copy, METH_O, HELP("__deepcopy__($self, memo, /)", "The same, since it doesn't change.")}, \
  {"__reversed__", key_reversed, METH_NOARGS, \
   HELP("__reversed__($self)", "The same as iter, from the last one on.")}, \
  {"items", key_items, METH_NOARGS, \
   HELP("items($self)", \
        "The members of an object, in the order of their names' bytes: pairs of the name, a str, and the part.\n\n" \
        "Raises TypeError of another kind.")}

#define STORED_SLOTS \
  {Py_tp_new, SLOT(key_new)}, {Py_tp_dealloc, SLOT(key_free)}, {Py_tp_richcompare, SLOT(key_compare)}, \
  {Py_tp_hash, SLOT(key_hash)}, {Py_tp_repr, SLOT(key_repr)}, {Py_tp_iter, SLOT(key_iterate)}, \
  {Py_mp_subscript, SLOT(key_subscript)}, {Py_mp_length, SLOT(key_length)}, {Py_sq_contains, SLOT(key_contains)}, \
  {Py_nb_bool, SLOT(key_truth)}, {Py_nb_float, SLOT(key_float)}, {Py_nb_int, SLOT(key_int)}

static PyMethodDef key_methods[] = {
    {"from_bytes", CALL(key_from_bytes) | METH_CLASS,
     HELP("from_bytes($type, data)",
          "The key that bytes(key) was. Raises ValueError where the bytes aren't a sort key.")},
    {"of", CALL(key_of) | METH_CLASS,
     HELP("of($type, value)",
          "The key of a value: a dict, list, tuple, str, int, float, Decimal, bool, None, a key or a document.\n\n"
          "The names of a dict are str. A float is the decimal that repr shows, and a Decimal is exact. TypeError\n"
          "is raised for another type, and ValueError for a number of more than 38 digits, NaN, infinity, half of\n"
          "a surrogate pair and more than 512 nested arrays and objects.")},
    {"value", key_value, METH_NOARGS,
     HELP("value($self)",
          "The value: a dict, list, str, int, Decimal, bool or None. A number without a fraction is an int.")},
    STORED_METHODS,
    {"text", key_py_text, METH_NOARGS,
     HELP("text($self)", "The text of the value, with the fewest digits in each number.")},
    {"get", CALL(key_get),
     HELP("get($self, path, default=None)",
          "The part at the path, a JSON Pointer (RFC 6901), or the default where there is none.\n\n"
          "A name alone is no path: its path is \"/name\", or pointer(name) where the name may have a / or a ~.\n"
          "Raises PathError where the path is none.")},
    {"contains", CALL(key_py_contains),
     HELP("contains($self, other)",
          "Whether the value contains another one, as @> of PostgreSQL's jsonb: a key or what Key.of takes.")},
    {"set", CALL(key_set),
     HELP("set($self, path, value, create=True)",
          "The key with the part at the path set to the value, which is a key or what Key.of takes.\n\n"
          "Where only the last step leads nowhere, a member or an item is added, unless create is false. In an\n"
          "array -1 is the last item, and an index past either end adds one there. The key itself where nothing\n"
          "changes. Raises PathError where the path is none, and ValueError where the key would nest too deep.")},
    {"remove", CALL(key_remove),
     HELP("remove($self, path)",
          "The key without the part at the path, or the key itself where there is none.\n\n"
          "In an array -1 is the last item. Raises PathError where the path is none.")},
    {"put", CALL(key_put),
     HELP("put($self, name, value)",
          "The key of an object with a member of this name and value, which is a key or what Key.of takes.\n\n"
          "Raises TypeError of another kind, and ValueError where the key would nest too deep.")},
    {"push", CALL(key_push),
     HELP("push($self, item)",
          "The key of an array with an item more at its end, which is a key or what Key.of takes.\n\n"
          "Raises TypeError of another kind, and ValueError where the key would nest too deep.")},
    {"merge", CALL(key_merge),
     HELP("merge($self, other)",
          "The key merged with another value, as || of PostgreSQL's jsonb does: a key or what Key.of takes.\n\n"
          "Two objects become one with the members of both, where those of the other win. Else two arrays become\n"
          "one, for which a value that is no array is an array of itself.")},
    {NULL, NULL, 0, NULL},
};

static PyGetSetDef key_properties[] = {
    {"kind", key_kind, NULL, "null, boolean, number, string, array or object.", NULL},
    {NULL, NULL, NULL, NULL, NULL},
};

static PyType_Slot key_slots[] = {
    {Py_tp_doc, "Key(text, mode=EXTENDED_JSON)\n--\n\n"
                "A document as its sort key: bytes that compare as the values do. Its parts are found in them.\n\n"
                "Keys are compared and hashed by their bytes, so by value. An array is iterated over its items, which\n"
                "are keys, and an object over the names of its members, which are str; len counts either. key[name]\n"
                "is the key of a member, key[index] that of an item, and key[1:3] a list of those of items. float\n"
                "takes a number, and int one without a fraction. A key is always true. RejectedText is raised where\n"
                "the text is no document of the mode."},
    {Py_tp_methods, key_methods},
    {Py_tp_getset, key_properties},
    STORED_SLOTS,
    {0, NULL},
};

static PyType_Spec key_spec = {"vizhoniku.Key", sizeof(struct key), 0,
                               Py_TPFLAGS_DEFAULT | Py_TPFLAGS_IMMUTABLETYPE, key_slots};

static PyMethodDef document_methods[] = {
    {"from_bytes", CALL(document_from_bytes) | METH_CLASS,
     HELP("from_bytes($type, data)",
          "The document that bytes(document) was, or the one that bytes(key) is.\n\n"
          "Raises ValueError where the bytes aren't a document.")},
    {"from_trusted_bytes", CALL(document_from_trusted_bytes) | METH_CLASS,
     HELP("from_trusted_bytes($type, data)",
          "The same of bytes that aren't checked.\n\n"
          "Of others than from_bytes takes the calls find nothing, or something in them, or raise ValueError.")},
    {"of", CALL(key_of) | METH_CLASS,
     HELP("of($type, value)",
          "The document of a value: a dict, list, tuple, str, int, float, Decimal, bool, None, a key or a\n"
          "document.\n\n"
          "It is as Key.of, but a Decimal has all its digits, and a float those that repr shows. ValueError is\n"
          "raised where these are more than 38.")},
    {"value", key_value, METH_NOARGS,
     HELP("value($self)",
          "The value: a dict, list, str, int, Decimal, bool or None. A Decimal has all digits of the number.")},
    STORED_METHODS,
    {"text", key_py_text, METH_NOARGS,
     HELP("text($self)", "The text of the value, with all digits of each number.")},
    {"get", CALL(key_get),
     HELP("get($self, path, default=None)",
          "The part at the path, a JSON Pointer (RFC 6901), or the default where there is none.\n\n"
          "Raises PathError where the path is none.")},
    {"contains", CALL(key_py_contains),
     HELP("contains($self, other)",
          "Whether the value contains another one, as @> of PostgreSQL's jsonb: zeros at the end don't count.")},
    {"set", CALL(key_set),
     HELP("set($self, path, value, create=True)",
          "The document with the part at the path set to the value, a document or what Document.of takes.\n\n"
          "It is as Key.set, with all digits. The document itself where nothing changes. Raises what Key.set\n"
          "raises.")},
    {"remove", CALL(key_remove),
     HELP("remove($self, path)",
          "The document without the part at the path, or the document itself where there is none.\n\n"
          "In an array -1 is the last item. Raises PathError where the path is none.")},
    {"put", CALL(key_put),
     HELP("put($self, name, value)",
          "The document of an object with a member of this name and value, a document or what Document.of takes.\n\n"
          "Raises TypeError of another kind, and ValueError where the document would nest too deep.")},
    {"push", CALL(key_push),
     HELP("push($self, item)",
          "The document of an array with an item more at its end, a document or what Document.of takes.\n\n"
          "Raises TypeError of another kind, and ValueError where the document would nest too deep.")},
    {"merge", CALL(key_merge),
     HELP("merge($self, other)",
          "The document merged with another value, as Key.merge has it: a document or what Document.of takes.")},
    {NULL, NULL, 0, NULL},
};

static PyGetSetDef document_properties[] = {
    {"key", document_key, NULL, "The sort key of the value.", NULL},
    {NULL, NULL, NULL, NULL, NULL},
};

static PyType_Slot document_slots[] = {
    {Py_tp_doc, "Document(text, mode=EXTENDED_JSON)\n--\n\n"
                "A value as a store keeps it: its sort key, and behind it the zeros that end its decimals, so 1.50\n"
                "stays 1.50.\n\n"
                "Documents are compared and hashed by their bytes: they are in the order of their values, and those\n"
                "of equal values in that of these zeros. Two are equal where their texts are. A key's bytes are the\n"
                "document of a value without such zeros. Parts are found as in a key, and are documents. RejectedText\n"
                "is raised where the text is no document of the mode."},
    {Py_tp_methods, document_methods},
    {Py_tp_getset, document_properties},
    STORED_SLOTS,
    {0, NULL},
};

static PyType_Spec document_spec = {"vizhoniku.Document", sizeof(struct key), 0,
                                    Py_TPFLAGS_DEFAULT | Py_TPFLAGS_IMMUTABLETYPE, document_slots};

static PyType_Slot parts_slots[] = {
    {Py_tp_dealloc, SLOT(parts_free)},
    {Py_tp_iter, SLOT(parts_iterate)},
    {Py_tp_iternext, SLOT(parts_next)},
    {0, NULL},
};

static PyType_Spec parts_spec = {"vizhoniku._native.Parts", sizeof(struct parts), 0,
                                 Py_TPFLAGS_DEFAULT | Py_TPFLAGS_DISALLOW_INSTANTIATION | Py_TPFLAGS_IMMUTABLETYPE,
                                 parts_slots};

static PyMethodDef functions[] = {
    {"check", CALL(py_check),
     HELP("check($module, text, mode=EXTENDED_JSON)",
          "Raises RejectedText where the text is no document of the mode.")},
    {"is_valid", CALL(py_is_valid),
     HELP("is_valid($module, text, mode=EXTENDED_JSON)", "Whether the text is a document of the mode.")},
    {"text", CALL(py_text),
     HELP("text($module, text, mode=EXTENDED_JSON)",
          "The text of the document's value: no whitespace, and members in the order of their keys' bytes.\n\n"
          "Raises RejectedText where the text is no document of the mode.")},
    {"sort_key", CALL(py_sort_key),
     HELP("sort_key($module, text, mode=EXTENDED_JSON)",
          "Bytes that compare as the values of documents do: equal for equal values, and none the beginning of\n"
          "others.\n\n"
          "Raises RejectedText where the text is no document of the mode.")},
    {"text_and_key", CALL(py_text_and_key),
     HELP("text_and_key($module, text, mode=EXTENDED_JSON)",
          "What text and sort_key return, of one reading. Raises RejectedText as they do.")},
    {"get", CALL(py_get),
     HELP("get($module, text, path, mode=EXTENDED_JSON)",
          "The text of the part at the path, a JSON Pointer (RFC 6901), or None where there is none.\n\n"
          "The path \"\" is the whole document, and \"/a/0\" the first item of the member \"a\". PathError is\n"
          "raised where the path is no JSON Pointer, and RejectedText where the text is no document of the mode.")},
    {"compare", CALL(py_compare),
     HELP("compare($module, left, right, mode=EXTENDED_JSON)",
          "-1, 0 or 1: the first document's value is below the second's, equal to it, or above it.\n\n"
          "Raises RejectedText where one is no document of the mode: its which is 2 for the second.")},
    {NULL, NULL, 0, NULL},
};

#define COMMON(name, field) {"vizhoniku._common", name, offsetof(struct state, field)}
#define VALUES(name, field) {"vizhoniku._values", name, offsetof(struct state, field)}

/* What the module needs of its package: from where, and where it is kept. */
static const struct { const char *module, *name; size_t field; } needed[] = {
    COMMON("Mode", mode), COMMON("STANDARD", modes[VIZHONIKU_STANDARD]), COMMON("EXTENDED", modes[VIZHONIKU_EXTENDED]),
    COMMON("JSON", modes[VIZHONIKU_JSON]), COMMON("EXTENDED_JSON", modes[VIZHONIKU_EXTENDED_JSON]),
    COMMON("PathError", path_error), COMMON("rejection", rejection), COMMON("RejectedText", rejected),
    COMMON("BAD_PATH", bad_path), COMMON("NO_KEY", no_key), COMMON("NO_DOCUMENT", no_document),
    COMMON("NO_NAME", no_name), COMMON("TOO_DEEP", too_deep), VALUES("text_of", text_of),
    VALUES("value_of", value_of), VALUES("float_of", float_of), VALUES("int_of", int_of),
    VALUES("items_of", items_of), VALUES("Decimal", decimal),
};

/* The objects of the state, one after the other, and how many there are. */
static PyObject **objects_in(struct state *state) { return (PyObject **)state; }

#define OBJECTS (sizeof(struct state) / sizeof(PyObject *))

static int fill_state(PyObject *module, struct state *state) {
  static const char *const kinds[] = {"", "null", "boolean", "number", "string", "array", "object"};
  for (size_t i = 0; i < sizeof needed / sizeof *needed; i++) {
    PyObject *from = PyImport_ImportModule(needed[i].module);
    PyObject *object = from ? PyObject_GetAttrString(from, needed[i].name) : NULL;
    Py_XDECREF(from);
    if (!object) return -1;
    objects_in(state)[needed[i].field / sizeof(PyObject *)] = object;
  }
  for (size_t i = 0; i < sizeof kinds / sizeof *kinds; i++)
    if (!(state->kinds[i] = PyUnicode_InternFromString(kinds[i]))) return -1;
  if (!(state->key_type = PyType_FromModuleAndSpec(module, &key_spec, NULL)) ||
      !(state->document_type = PyType_FromModuleAndSpec(module, &document_spec, NULL)) ||
      !(state->parts_type = PyType_FromModuleAndSpec(module, &parts_spec, NULL)) ||
      !(state->stored = PyTuple_Pack(2, state->key_type, state->document_type)))
    return -1;
  /* The default of a parameter is looked up by its name. */
  if (PyModule_AddObjectRef(module, "EXTENDED_JSON", state->modes[DEFAULT_MODE]) < 0 ||
      PyModule_AddIntConstant(module, "INTERFACE", (long)vizhoniku_version()) < 0 ||
      PyModule_AddObjectRef(module, "Key", state->key_type) < 0)
    return -1;
  return PyModule_AddObjectRef(module, "Document", state->document_type);
}

static int execute(PyObject *module) {
  if (vizhoniku_version() < VIZHONIKU_VERSION) {
    PyErr_Format(PyExc_ImportError, "libvizhoniku has interface version %u, and %u is needed",
                 (unsigned)vizhoniku_version(), (unsigned)VIZHONIKU_VERSION);
    return -1;
  }
  return fill_state(module, PyModule_GetState(module));
}

static int traverse(PyObject *module, visitproc visit, void *arg) {
  PyObject **objects = objects_in(PyModule_GetState(module));
  for (size_t i = 0; i < OBJECTS; i++) Py_VISIT(objects[i]);
  return 0;
}

static int clear(PyObject *module) {
  PyObject **objects = objects_in(PyModule_GetState(module));
  for (size_t i = 0; i < OBJECTS; i++) Py_CLEAR(objects[i]);
  return 0;
}

static void free_module(void *module) { clear(module); }

static PyModuleDef_Slot slots[] = {{Py_mod_exec, SLOT(execute)}, {0, NULL}};

static struct PyModuleDef definition = {
    PyModuleDef_HEAD_INIT,
    .m_name = "vizhoniku._native",
    .m_doc = "The calls of the library by a module in C.",
    .m_size = sizeof(struct state),
    .m_methods = functions,
    .m_slots = slots,
    .m_traverse = traverse,
    .m_clear = clear,
    .m_free = free_module,
};

PyMODINIT_FUNC PyInit__native(void);

PyMODINIT_FUNC PyInit__native(void) { return PyModuleDef_Init(&definition); }
