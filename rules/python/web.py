"""Examples of the rules of web.yaml."""
import os
import traceback

import requests
from flask import Flask, jsonify, redirect, request

DEBUG = True  # not found: python-django-debug
ALLOWED_HOSTS = ["shop.example"]  # not found: python-django-any-host
SECRET_KEY = os.environ["SECRET_KEY"]  # not found: python-secret-key-in-code
app = Flask("shop")
app.config["SECRET_KEY"] = "0123456789"  # found: python-secret-key-in-code


@csrf_exempt
def pay(request):  # found: python-request-forgery-unchecked
    requests.post(request.POST["callback"], timeout=3)  # found: python-request-chooses-address
    requests.get("https://rates.example")  # found: python-call-without-time-limit
    requests.get("https://rates.example", timeout=3)  # not found: python-call-without-time-limit, python-request-chooses-address
    return HttpResponseRedirect(request.GET["next"])  # found: python-redirect-from-request


@login_required
def show(request):  # not found: python-request-forgery-unchecked
    return redirect("/start")  # not found: python-redirect-from-request


def cookies(response):
    response.set_cookie("seen", "1", secure=True)  # found: python-cookie-for-scripts
    response.set_cookie("seen", "1", httponly=True)  # found: python-cookie-without-secure
    response.set_cookie("seen", "1", httponly=True, secure=True)  # not found: python-cookie-for-scripts, python-cookie-without-secure
    response.headers["Access-Control-Allow-Origin"] = "*"  # found: python-any-origin
    response.headers["Access-Control-Allow-Origin"] = "https://shop.example"  # not found: python-any-origin


def answer():
    try:
        return jsonify(prices())
    except ValueError:
        return traceback.format_exc(), 500  # found: python-error-sent-to-user
    except KeyError:
        return "no such price", 404  # not found: python-error-sent-to-user


class Handler:
    def do_POST(self):
        self.rfile.read()  # found: python-body-read-whole
        self.rfile.read(10_000)  # not found: python-body-read-whole


def serve(socket):
    socket.bind(("0.0.0.0", 80))  # found: python-listens-everywhere
    socket.bind(("127.0.0.1", 80))  # not found: python-listens-everywhere
    app.run(host="0.0.0.0")  # found: python-listens-everywhere
    app.run(port=8000, debug=True)  # found: python-server-shows-insides
    app.run(port=8000, debug=False)  # not found: python-server-shows-insides
