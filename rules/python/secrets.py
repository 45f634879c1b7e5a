"""Examples of the rules of secrets.yaml."""
import hashlib
import random
import secrets
import ssl

import requests


def digests(page, other):
    hashlib.md5(page)  # found: python-weak-digest
    hashlib.sha1()  # found: python-weak-digest
    hashlib.sha256(page)  # not found: python-weak-digest
    hashlib.md5(page, usedforsecurity=False)  # not found: python-weak-digest
    hashlib.new("md5", page)  # found: python-weak-digest-by-name
    hashlib.new('SHA1')  # found: python-weak-digest-by-name
    hashlib.new("sha512")  # not found: python-weak-digest-by-name
    hashlib.pbkdf2_hmac("sha256", page, salt, 1_000)  # found: python-few-rounds
    hashlib.pbkdf2_hmac("sha256", page, salt, 600_000)  # not found: python-few-rounds
    if digest == other:  # found: python-digest-compared-by-equality
        return True
    if request.signature != other:  # found: python-digest-compared-by-equality
        return False
    if digest == None:  # not found: python-digest-compared-by-equality
        return False
    return digests_of(page) == other  # not found: python-digest-compared-by-equality


def ciphers(key):
    DES.new(key)  # found: python-weak-cipher
    algorithms.ARC4(key)  # found: python-weak-cipher
    algorithms.AES(key)  # not found: python-weak-cipher
    AES.new(key, AES.MODE_ECB)  # found: python-cipher-block-by-block
    Cipher(algorithms.AES(key), modes.ECB())  # found: python-cipher-block-by-block
    AES.new(key, AES.MODE_GCM)  # not found: python-cipher-block-by-block
    AES.new(key, AES.MODE_CBC, b"0123456789abcdef")  # found: python-fixed-initial-value
    modes.CBC(b"0123456789abcdef")  # found: python-fixed-initial-value
    AES.new(key, AES.MODE_CBC, iv=get_random_bytes(16))  # not found: python-fixed-initial-value
    RSA.generate(1024)  # found: python-short-rsa-key
    rsa.generate_private_key(public_exponent=65537, key_size=512)  # found: python-short-rsa-key
    rsa.generate_private_key(public_exponent=65537, key_size=3072)  # not found: python-short-rsa-key


def numbers(user):
    token = random.randint(0, 1_000_000)  # found: python-guessable-secret
    user.reset_token = "%06d" % random.randrange(1_000_000)  # found: python-guessable-secret
    token = secrets.token_hex(16)  # not found: python-guessable-secret
    colour = random.choice(colours)  # not found: python-guessable-secret
    return token, colour


def connections(session, context, client):
    requests.get("https://shop.example", verify=False)  # found: python-certificate-unchecked
    session.verify = False  # found: python-certificate-unchecked
    context.verify_mode = ssl.CERT_NONE  # found: python-certificate-unchecked
    ssl._create_unverified_context()  # found: python-certificate-unchecked
    requests.get("https://shop.example", verify=True)  # not found: python-certificate-unchecked
    context.check_hostname = False  # found: python-host-name-unchecked
    context.check_hostname = True  # not found: python-host-name-unchecked
    ssl.SSLContext(ssl.PROTOCOL_TLSv1)  # found: python-old-tls
    ssl.SSLContext(ssl.PROTOCOL_TLS_CLIENT)  # not found: python-old-tls
    client.set_missing_host_key_policy(paramiko.AutoAddPolicy())  # found: python-ssh-unknown-hosts
    client.set_missing_host_key_policy(paramiko.RejectPolicy())  # not found: python-ssh-unknown-hosts
    requests.post("http://shop.example/pay", json={})  # found: python-clear-text-request
    requests.get("http://localhost:8000/")  # not found: python-clear-text-request
    requests.get("https://shop.example")  # not found: python-clear-text-request
    ftplib.FTP("shop.example")  # found: python-clear-text-protocol
    ftplib.FTP_TLS("shop.example")  # not found: python-clear-text-protocol


def tokens(text, key):
    jwt.decode(text, key, verify=False)  # found: python-token-unchecked
    jwt.decode(text, options={"verify_signature": False})  # found: python-token-unchecked
    jwt.encode(text, None, algorithm="none")  # found: python-token-unchecked
    jwt.decode(text, key, algorithms=["HS256"])  # not found: python-token-unchecked


def passwords(settings, environment):
    db_password = "correct horse"  # found: python-password-in-code
    settings.api_key = "0123456789"  # found: python-password-in-code
    password = environment["PASSWORD"]  # not found: python-password-in-code
    password = ""  # not found: python-password-in-code
    password_field = "password"  # not found: python-password-in-code
    connect(host="db.example", password="correct horse")  # found: python-password-as-argument
    connect(host="db.example", password=db_password)  # found: python-password-as-argument
    connect(host="db.example", password=password)  # not found: python-password-as-argument
    return password, password_field
