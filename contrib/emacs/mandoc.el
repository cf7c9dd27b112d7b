;;; mandoc.el --- messages of mandoc in Emacs  -*- lexical-binding: t -*-
;; For: M-x mandoc-lint shows what `mandoc -T lint' says of the page of this buffer; M-g n goes to the place of the next message.
;; Needs: Emacs 24.4, and mandoc in the path (or its path in `mandoc-program').
;; Use: (load "DIR/contrib/emacs/mandoc.el") in the init file

;;; Code:
(require 'compile)

(defvar mandoc-program "mandoc" "The program that reads pages.")

;; A message is an error, a warning (where its fourth part is there) or an info (the fifth).
(add-to-list 'compilation-error-regexp-alist-alist
             '(mandoc "^mandoc: \\(.+?\\):\\([0-9]+\\):\\([0-9]+\\): \\(?:ERROR\\|\\(WARNING\\|UNSUPP\\)\\|\\(STYLE\\|BASE\\)\\): "
                      1 2 3 (4 . 5)))
(add-to-list 'compilation-error-regexp-alist 'mandoc)

(defun mandoc-lint-command (page)
  "The command that says what is wrong with PAGE."
  (format "%s -T lint %s" (shell-quote-argument mandoc-program) (shell-quote-argument page)))

(defun mandoc-lint ()
  "Show what mandoc says of the page of this buffer."
  (interactive)
  (unless buffer-file-name (user-error "This buffer is no file"))
  (compile (mandoc-lint-command buffer-file-name)))

(provide 'mandoc)
;;; mandoc.el ends here
