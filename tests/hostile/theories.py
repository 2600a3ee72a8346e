"""Scripts over arrays and functions that are made to be slow, by their size, as made.py has them over words."""
from made import Family, asserted, nested, text

INDEX, VALUE = "(_ BitVec 16)", "(_ BitVec 8)"
ARRAY = f"(Array {INDEX} {VALUE})"


def named(letter, sort, count):
    """As many constants of a sort."""
    return [f"(declare-const {letter}{i} {sort})" for i in range(count)]


def chosen(array, cases):
    """An array that is so many times another one, or this."""
    return "".join(f"(ite p{i} a{i} " for i in range(cases)) + array + ")" * cases


def store_chain(n):
    """One element of an array that was stored over at so many other places, which are literals."""
    stores = "(store " * n + "a" + "".join(f" #x{i:04x} #x{i % 256:02x})" for i in range(n))
    return text(asserted(f"(= (select {stores} #xffff) #x07)", [f"(declare-const a {ARRAY})"])), ["sat"]


def stores_at_names(n):
    """The same where the places are names."""
    lines = [f"(declare-const a {ARRAY})", *named("i", INDEX, n + 1)]
    stores = "(store " * n + "a" + "".join(f" i{k} #x{k % 256:02x})" for k in range(n))
    return text(asserted(f"(= (select {stores} i{n}) #x07)", lines)), ["sat"]


def stores_read_back(n):
    """Each element of such an array, read back."""
    lines = [f"(declare-const a0 {ARRAY})"]
    for k in range(n):
        lines += [f"(declare-const a{k + 1} {ARRAY})", f"(assert (= a{k + 1} (store a{k} #x{k:04x} #x{k % 256:02x})))"]
    reads = " ".join(f"(= (select a{n} #x{k:04x}) #x{k % 256:02x})" for k in range(0, n, max(1, n // 10)))
    return text(asserted(f"(not (and {reads}))", lines)), ["unsat"]


def many_selects(n):
    """Elements of one array at places that are names."""
    lines = [f"(declare-const a {ARRAY})", *named("i", INDEX, n)]
    return text([*lines, *[f"(assert (= (select a i{k}) #x{k % 256:02x}))" for k in range(n)], "(check-sat)"]), ["sat"]


def many_applications(n):
    """Applications of one function to names."""
    lines = [f"(declare-fun f ({INDEX} {INDEX}) {VALUE})", *named("i", INDEX, n + 1)]
    return text([*lines, *[f"(assert (= (f i{k} i{k + 1}) #x{k % 256:02x}))" for k in range(n)], "(check-sat)"]), ["sat"]


def nested_applications(n):
    """An application of a function to its own value, so many times."""
    lines = [f"(declare-fun f ({VALUE}) {VALUE})", f"(declare-const x {VALUE})"]
    return text(asserted(f"(= {nested('f', 'x', n)} x)", lines)), ["sat"]


def different_elements(n):
    """As many pairs as there are two of an array's elements, under a condition that need not hold."""
    elements = " ".join(f"(select a #x{k:04x})" for k in range(n))
    return text(asserted(f"(or p (distinct {elements}))", ["(declare-const p Bool)", f"(declare-const a (Array {INDEX} {INDEX}))"])), ["sat"]


def deep_choices(n):
    """One element of an array that is one of many."""
    lines = [f"(declare-const b {ARRAY})", f"(declare-const j {INDEX})", *named("p", "Bool", n), *named("a", ARRAY, n)]
    return text(asserted(f"(= (select {chosen('b', n)} j) #x07)", lines)), ["sat"]


def constant_arrays(n):
    """Constant arrays, each read at one place."""
    lines = [*named("v", VALUE, n), f"(declare-const j {INDEX})"]
    return text([*lines, *[f"(assert (= (select ((as const {ARRAY}) v{k}) j) #x{k % 256:02x}))" for k in range(n)], "(check-sat)"]), ["sat"]


def equal_constants(n):
    """Constant arrays that are equal in a chain, the first value not the last."""
    arrays = " ".join(f"((as const {ARRAY}) v{k})" for k in range(n))
    return text([*named("v", VALUE, n), f"(assert (= {arrays}))", *asserted(f"(not (= v0 v{n - 1}))")]), ["unsat"]


def equal_arrays(n):
    """Arrays that are equal in a chain, with an element of the first that is not the one of the last."""
    lines = [*named("a", ARRAY, n), f"(declare-const j {INDEX})", f"(assert (= {' '.join(f'a{k}' for k in range(n))}))"]
    return text([*lines, *asserted(f"(not (= (select a0 j) (select a{n - 1} j)))")]), ["unsat"]


def doubling_arrays(n):
    """Definitions of arrays, each twice in the next: written out, the last is as long as 2 to the number of definitions."""
    lines = [f"(define-fun d0 () {ARRAY} a)"]
    lines += [f"(define-fun d{k + 1} () {ARRAY} (ite p{k} d{k} (store d{k} #x{k:04x} #x{k % 256:02x})))" for k in range(n)]
    declared = [f"(declare-const a {ARRAY})", *named("p", "Bool", n)]
    return text(asserted(f"(= (select d{n} #xffff) #x07)", [*declared, *lines])), ["sat"]


def different_arrays(n):
    """As many witnesses as there are two of the arrays, under a condition that need not hold."""
    lines = ["(declare-const p Bool)", *named("a", ARRAY, n)]
    return text(asserted(f"(or p (distinct {' '.join(f'a{k}' for k in range(n))}))", lines)), ["sat"]


def checks_of_one_array(n):
    """Checks of one element each, beside many that are popped before it."""
    lines = [f"(declare-const a {ARRAY})"]
    for k in range(n):
        lines += ["(push 1)", f"(assert (= (select a #x{k:04x}) #x{k % 256:02x}))", "(check-sat)", "(pop 1)"]
    return text(lines), ["sat"] * n


FAMILIES = {
    "store_chain": Family(store_chain, 1_000),
    "stores_at_names": Family(stores_at_names, 500),
    "stores_read_back": Family(stores_read_back, 100),
    "many_selects": Family(many_selects, 100),
    "many_applications": Family(many_applications, 250),
    "nested_applications": Family(nested_applications, 10_000),
    "different_elements": Family(different_elements, 50, forced=2.0),
    "deep_choices": Family(deep_choices, 2_500),
    "constant_arrays": Family(constant_arrays, 200),
    "equal_constants": Family(equal_constants, 50),
    "equal_arrays": Family(equal_arrays, 100),
    "doubling_arrays": Family(doubling_arrays, 1_000),
    "different_arrays": Family(different_arrays, 8, forced=2.0),
    "checks_of_one_array": Family(checks_of_one_array, 500),
}
