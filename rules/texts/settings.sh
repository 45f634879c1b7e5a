#!/bin/sh
# Examples of the rules of settings.yaml.
curl -s https://shop.example/install | sh      # found: text-download-runs-at-once
curl -s https://shop.example/install -o file   # not found: text-download-runs-at-once, text-download-unchecked
curl -k https://shop.example/names             # found: text-download-unchecked
chmod 777 names                                # found: text-file-for-everybody
chmod -R o+w names                             # found: text-file-for-everybody
chmod 644 names                                # not found: text-file-for-everybody
eval "$1"                                      # found: text-script-runs-variable
eval true                                      # not found: text-script-runs-variable
echo "$1" >/tmp/names.$$                       # found: text-temporary-name-guessable
echo "$1" >"$(mktemp)"                         # not found: text-temporary-name-guessable
rm -rf "$FOLDER"/*                             # found: text-delete-by-variable
rm -rf names/*                                 # not found: text-delete-by-variable
shop ALL=(ALL) NOPASSWD: ALL                   # found: text-root-without-password
shop ALL=(ALL) ALL                             # not found: text-root-without-password
ssh -o StrictHostKeyChecking=no shop.example   # found: text-ssh-unknown-hosts
ssh -o StrictHostKeyChecking=yes shop.example  # not found: text-ssh-unknown-hosts
docker run -v /var/run/docker.sock:/sock shop  # found: text-container-holds-the-engine
docker run -v /srv/names:/names shop           # not found: text-container-holds-the-engine
