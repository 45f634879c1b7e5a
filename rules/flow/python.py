"""Examples of the rules of python.yaml."""
import getpass
import html
import logging
import os
import pickle
import shlex
import subprocess
import sys

import requests


def show(cursor):
    name = request.args.get("name")
    os.system("ls " + name)  # found: python-request-to-shell
    quoted = shlex.quote(name)
    os.system("ls " + quoted)  # not found: python-request-to-shell
    query = "SELECT * FROM users WHERE name = '%s'" % name
    cursor.execute(query)  # found: python-request-to-query
    cursor.execute("SELECT * FROM users WHERE name = ?", (name,))  # not found: python-request-to-query
    path = request.form.get("page")
    open("pages/" + path)  # found: python-request-to-file
    open("pages/" + os.path.basename(path))  # not found: python-request-to-file


def run():
    words = request.get_json()
    eval(words["sum"])  # found: python-request-to-evaluation
    words = "1 + 1"
    eval(words)  # not found: python-request-to-evaluation
    basket = request.cookies.get("basket")
    if basket:
        return pickle.loads(bytes.fromhex(basket))  # found: python-request-to-object
    return pickle.loads(verified(basket))  # not found: python-request-to-object


def page():
    name = request.args.get("name")
    greeting = f"Hello {name}"
    make_response(greeting)  # found: python-request-to-page
    make_response("Hello " + html.escape(name))  # not found: python-request-to-page
    render_template_string("<b>" + name + "</b>")  # found: python-request-to-template
    render_template_string("<b>{{ name }}</b>", name=name)  # not found: python-request-to-template


def call():
    target = request.form.get("target")
    requests.post("https://rates.example", target)  # not found: python-request-to-address
    requests.get(target, timeout=3)  # found: python-request-to-address
    for place in target.split():
        redirect(place)  # found: python-request-to-redirect
    redirect(url_for("page", name=target))  # not found: python-request-to-redirect


def main():
    name = sys.argv[1]
    subprocess.run("ls " + name, shell=True)  # found: python-words-to-shell
    subprocess.run(["ls", name])  # not found: python-words-to-shell
    os.system("ls " + shlex.quote(os.getenv("HOME")))  # not found: python-words-to-shell
    word = getpass.getpass()
    logging.info("logged in with %s", word)  # found: python-password-to-log
    print(len(word))  # not found: python-password-to-log
