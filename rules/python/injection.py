"""Examples of the rules of injection.yaml. Each mark speaks of its own line."""
import asyncio
import importlib
import os
import subprocess

import jinja2
import sqlalchemy


def code(text, names):
    eval(text)  # found: python-eval-dynamic
    eval("1 + " + text, names)  # found: python-eval-dynamic
    eval("1 + 1")  # not found: python-eval-dynamic
    literal_eval(text)  # not found: python-eval-dynamic
    exec(text, names)  # found: python-exec-dynamic
    exec("import this")  # not found: python-exec-dynamic


def commands(name, client):
    os.system("tar cf all.tar " + name)  # found: python-os-command-dynamic
    os.system("date")  # not found: python-os-command-dynamic
    os.popen(f"ls {name}", "r")  # found: python-os-command-dynamic
    subprocess.getoutput(name)  # found: python-os-command-dynamic
    asyncio.create_subprocess_shell("ls %s" % name)  # found: python-os-command-dynamic
    subprocess.getoutput("uname -a")  # not found: python-os-command-dynamic
    subprocess.run("gzip " + name, check=True, shell=True)  # found: python-subprocess-shell
    subprocess.Popen(name, shell=True)  # found: python-subprocess-shell
    subprocess.run("gzip a.txt", shell=True)  # not found: python-subprocess-shell
    subprocess.run(["gzip", name], check=True)  # not found: python-subprocess-shell
    subprocess.run(name, shell=False)  # not found: python-subprocess-shell
    client.exec_command("cat " + name)  # found: python-ssh-command-dynamic
    client.exec_command("uptime")  # not found: python-ssh-command-dynamic


def queries(cursor, server, tree, name):
    cursor.execute("SELECT * FROM users WHERE name = '%s'" % name)  # found: python-sql-built-from-text
    cursor.execute("SELECT * FROM users WHERE name = '" + name + "'")  # found: python-sql-built-from-text
    cursor.execute(f"SELECT * FROM users WHERE name = '{name}'")  # found: python-sql-built-from-text
    cursor.execute(f"""SELECT * FROM users -- found: python-sql-built-from-text
        WHERE name = '{name}'""")
    cursor.execute(f"SELECT * FROM users")  # not found: python-sql-built-from-text
    cursor.execute("SELECT * FROM {}".format(name), ())  # found: python-sql-built-from-text
    sqlalchemy.text("DELETE FROM users WHERE id = %d" % name)  # found: python-sql-built-from-text
    cursor.execute("SELECT * FROM users WHERE name = ?", (name,))  # not found: python-sql-built-from-text
    cursor.execute("SELECT * " + "FROM users")  # not found: python-sql-built-from-text
    cursor.execute(query)  # not found: python-sql-built-from-text
    server.search_s(base, scope, "(uid=%s)" % name)  # found: python-ldap-filter-built-from-text
    server.search_s(base, scope, "(uid=*)")  # not found: python-ldap-filter-built-from-text
    tree.xpath("//user[@name='" + name + "']")  # found: python-xpath-built-from-text
    tree.xpath("//user[@name=$name]", name=name)  # not found: python-xpath-built-from-text


def pages(request, text, environment):
    render_template_string(text, user=None)  # found: python-template-dynamic
    jinja2.Template(request.args["page"])  # found: python-template-dynamic
    environment.from_string(text)  # found: python-template-dynamic
    render_template_string("<p>{{ user }}</p>", user=text)  # not found: python-template-dynamic
    importlib.import_module("plugins." + text)  # found: python-import-dynamic
    __import__(text)  # found: python-import-dynamic
    importlib.import_module("plugins.mail")  # not found: python-import-dynamic
    mark_safe("<b>%s</b>" % text)  # found: python-html-marked-safe
    Markup(text)  # found: python-html-marked-safe
    Markup("<br>")  # not found: python-html-marked-safe
    jinja2.Environment(loader=loader)  # found: python-jinja-without-escaping
    jinja2.Environment(loader=loader, autoescape=False)  # found: python-jinja-without-escaping
    jinja2.Environment(loader=loader, autoescape=True)  # not found: python-jinja-without-escaping
