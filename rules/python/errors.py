"""Examples of the rules of errors.yaml."""
import re


def lost():
    try:  # found: python-error-lost
        work()
    except Exception:
        pass
    try:  # found: python-every-error-caught
        work()
    except:
        log("no work today")
    try:  # not found: python-error-lost, python-every-error-caught
        work()
    except ValueError:
        pass
    try:  # not found: python-every-error-caught
        work()
    except:
        undo()
        raise
    try:  # found: python-error-lost, python-every-error-caught
        work()
    except:
        pass


def checks(user, value, name):
    assert (value > 0, "value is too small")  # found: python-assert-of-a-tuple
    assert value > 0, "value is too small"  # not found: python-assert-of-a-tuple, python-access-checked-by-assert
    assert user.is_admin  # found: python-access-checked-by-assert
    if value == value:  # found: python-compared-with-itself
        return 1
    if value.first != value.first:  # found: python-compared-with-itself
        return 2
    if value == name or read() == read():  # not found: python-compared-with-itself
        return 3
    if name is "root":  # found: python-text-compared-by-identity
        return 4
    if name is None:  # not found: python-text-compared-by-identity, python-compared-with-none
        return 5
    if name == None:  # found: python-compared-with-none
        return 6
    return 7


def ends(file):
    try:
        work()
    finally:
        file.close()
        return True  # found: python-return-in-finally
    return False  # not found: python-return-in-finally


def defaults(first, known=[]):  # found: python-shared-default
    return known + [first]


def no_defaults(first, known=None):  # not found: python-shared-default
    return known or [first]


def expressions(text):
    re.match(r"(a+)+$", text)  # found: python-slow-expression
    re.compile('([a-z]*)*x')  # found: python-slow-expression
    re.match(r"a+$", text)  # not found: python-slow-expression
    re.match(r"(a+)b", text)  # not found: python-slow-expression


def locks(lock):
    lock.acquire()  # found: python-lock-not-released
    work()
    lock.release()
    with lock:  # not found: python-lock-not-released
        work()


def loops(items, others):
    for item in items:
        items.remove(item)  # found: python-list-changed-while-read
        others.append(item)  # not found: python-list-changed-while-read
