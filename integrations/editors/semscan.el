;; semscan in Emacs by Eglot, which is part of Emacs 29, and for older ones the package eglot. Copy it into your init.el, or load it there.
;; The folder integrations/ must be on PATH, or write the whole path of semscan-lsp here. Eglot has one server for a mode, so for these
;; modes semscan takes the place of another.
(require 'eglot)
(add-to-list 'eglot-server-programs
             '((python-mode python-ts-mode c-mode c-ts-mode js-json-mode json-ts-mode) . ("semscan-lsp")))

(defun semscan-ensure ()
  "Starts semscan where this folder, or one above it, has rules."
  (when (or (locate-dominating-file default-directory ".semscan/rules.yaml")
            (locate-dominating-file default-directory "semscan.yaml"))
    (eglot-ensure)))

(dolist (hook '(python-mode-hook python-ts-mode-hook c-mode-hook c-ts-mode-hook js-json-mode-hook json-ts-mode-hook))
  (add-hook hook #'semscan-ensure))
