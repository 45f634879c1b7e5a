import os
import subprocess

from server import Server


def price(terms, known={}):
    if known == None:
        known = {}
    return eval(terms, known)


def export(name):
    os.system("date")
    os.system("tar cf shop.tar " + name)
    subprocess.run(["gzip", name], check=True)
    subprocess.run("gzip " + name, shell=True)
    os.chmod(name, 0o644)
    os.chmod("shop.tar", 0o666)


def settings(path):
    try:
        with open(path) as file:
            return file.read()
    except OSError:
        pass
    return open("default.json").read()


def main():
    app = Server(settings("shop.json"))
    app.run(port=8000, debug=True)
