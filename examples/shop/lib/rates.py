import hashlib
from urllib.request import urlopen


def today():
    return urlopen("http://rates.example/today", timeout=3).read()


def kept():
    return urlopen("http://localhost:8080/today", timeout=3).read()


def name_of(page):
    return "rates-" + hashlib.md5(page).hexdigest()


def is_same(page, digest):
    return hashlib.sha256(page).digest() == digest
