;;; dactl-mode.el --- Highlighting for dactl  -*- lexical-binding: t -*-

;; Put this file into a folder of `load-path' and (require 'dactl-mode) into your init file, or:
;; (load "REPOSITORY/editors/emacs/dactl-mode.el")

;;; Code:

(defvar dactl-mode-syntax-table
  (let ((table (make-syntax-table)))
    (modify-syntax-entry ?{ "<" table)
    (modify-syntax-entry ?} ">" table)
    (modify-syntax-entry ?_ "w" table)
    (dolist (sign '(?\; ?, ?| ?: ?= ?> ?* ?# ?^ ?+ ?-))
      (modify-syntax-entry sign "." table))
    table)
  "Comments stand in braces and do not nest.")

(defconst dactl-propertize
  (syntax-propertize-rules
   ("'\\([ -~]\\)'" (1 (unless (nth 4 (syntax-ppss (match-beginning 0))) (string-to-syntax ".")))))
  "A brace between quotes begins no comment.")

(defconst dactl-font-lock-keywords
  (list
   (cons (regexp-opt '("MODULE" "ENDMODULE" "IMPORTS" "SYMBOL" "PATTERN" "RULE" "INITIAL") 'words)
         'font-lock-keyword-face)
   (cons (regexp-opt '("PUBLIC" "REWRITABLE" "OVERWRITABLE" "CREATABLE") 'words) 'font-lock-builtin-face)
   (cons (regexp-opt '("ANY" "INT" "CHAR") 'words) 'font-lock-constant-face)
   (cons (regexp-opt '("Arithmetic" "IAdd" "ISub" "IMul" "IEq" "ILt" "True" "False") 'words)
         'font-lock-function-name-face)
   '("\\<[A-Z][A-Za-z0-9_]*\\>" . font-lock-type-face)
   '("\\<[a-z][A-Za-z0-9_]*\\>" . font-lock-variable-name-face)
   '("-?[0-9]+" . font-lock-string-face)
   '("'[ -~]'" 0 font-lock-string-face t)
   '("=>\\|->\\|:=" . font-lock-keyword-face)
   '("[*^]\\|#+" . font-lock-warning-face))
  "What is shown how; the first that fits.")

;;;###autoload
(define-derived-mode dactl-mode prog-mode "Dactl"
  "A mode for dactl, a language of graph rewriting: highlighting and comments."
  (setq-local font-lock-defaults '(dactl-font-lock-keywords))
  (setq-local syntax-propertize-function dactl-propertize)
  (setq-local comment-start "{ ")
  (setq-local comment-end " }")
  (setq-local comment-start-skip "{[ \t]*")
  (setq-local comment-end-skip "[ \t]*}")
  (setq-local indent-line-function #'indent-relative)
  (setq-local indent-tabs-mode nil))

;;;###autoload
(add-to-list 'auto-mode-alist '("\\.dactl\\'" . dactl-mode))

(provide 'dactl-mode)

;;; dactl-mode.el ends here
