"""Examples of the rules of files.yaml."""
import json
import os
import pickle
import shelve
import shutil
import tarfile
import tempfile
import zipfile

import numpy as np
import yaml


def objects(data, file):
    pickle.loads(data)  # found: python-pickle-load
    cloudpickle.load(file)  # found: python-pickle-load
    pickle.dumps(data)  # not found: python-pickle-load
    json.loads(data)  # not found: python-pickle-load
    marshal.loads(data)  # found: python-marshal-load
    marshal.dumps(data)  # not found: python-marshal-load
    shelve.open("names")  # found: python-shelve-open
    dbm.open("names")  # not found: python-shelve-open
    jsonpickle.decode(data)  # found: python-jsonpickle-decode
    jsonpickle.encode(data)  # not found: python-jsonpickle-decode
    torch.load(file)  # found: python-torch-load-objects
    torch.load(file, weights_only=True)  # not found: python-torch-load-objects
    np.load(file, allow_pickle=True)  # found: python-numpy-load-objects
    np.load(file, allow_pickle=False)  # not found: python-numpy-load-objects
    yaml.load(data)  # found: python-yaml-load-objects
    yaml.load(data, Loader=yaml.Loader)  # found: python-yaml-load-objects
    yaml.unsafe_load(data)  # found: python-yaml-load-objects
    yaml.load(data, Loader=yaml.SafeLoader)  # not found: python-yaml-load-objects
    yaml.load(data, yaml.SafeLoader)  # not found: python-yaml-load-objects
    yaml.safe_load(data)  # not found: python-yaml-load-objects


def documents(parser):
    etree.XMLParser(resolve_entities=True)  # found: python-xml-external-entities
    parser.setFeature(feature_external_ges, True)  # found: python-xml-external-entities
    parser.setFeature(feature_external_ges, False)  # not found: python-xml-external-entities
    etree.XMLParser(resolve_entities=False)  # not found: python-xml-external-entities
    etree.XMLParser(huge_tree=True)  # found: python-xml-huge-tree
    etree.XMLParser(huge_tree=False)  # not found: python-xml-huge-tree


def archives(path):
    with tarfile.open(path) as archive:
        archive.extractall("out")  # found: python-archive-extract-all
        archive.extractall("out", filter="data")  # not found: python-archive-extract-all
    with zipfile.ZipFile(path) as archive:
        archive.extractall("out")  # not found: python-archive-extract-all
    shutil.unpack_archive(path)  # found: python-archive-extract-all


def paths(request):
    open("pages/" + request.args["page"])  # found: python-open-path-from-request
    send_file(os.path.join("pages", request.form.get("page")))  # found: python-open-path-from-request
    open("pages/first.html")  # not found: python-open-path-from-request
    tempfile.mktemp()  # found: python-temporary-name
    tempfile.mkstemp()  # not found: python-temporary-name
    open("/tmp/names.txt", "w")  # found: python-fixed-temporary-file
    open('/var/tmp/names.txt', mode)  # not found: python-fixed-temporary-file
    open("/tmp/names.txt", "r")  # not found: python-fixed-temporary-file
    open("/home/names.txt", "w")  # not found: python-fixed-temporary-file
    os.chmod(path, 0o777)  # found: python-file-for-everybody
    os.chmod(path, 0o666)  # found: python-file-for-everybody
    os.chmod(path, 0o644)  # not found: python-file-for-everybody
    os.chmod(path, mode)  # not found: python-file-for-everybody
    os.umask(0)  # found: python-umask-nothing
    os.umask(0o022)  # not found: python-umask-nothing
    json.load(open("names.json"))  # found: python-file-left-open
    open("names.txt").read()  # found: python-file-left-open
    with open("names.txt") as file:  # not found: python-file-left-open
        file.read()
