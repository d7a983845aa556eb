;;; janus-mode.el --- Colours of the reversible language Janus  -*- lexical-binding: t -*-
;;; Code:
(require 'generic-x)

(define-generic-mode janus-mode
  '("//")
  '("call" "delocal" "do" "else" "empty" "fi" "from" "if" "local" "loop" "main" "nil" "pop" "procedure" "push" "skip" "then" "top" "uncall" "until")
  '(("^%.*$" . font-lock-preprocessor-face)
    ("\\_<\\(int\\|stack\\)\\_>" . font-lock-type-face)
    ("\\_<\\(?:procedure\\|call\\|uncall\\)\\s-+\\([A-Za-z][A-Za-z0-9_]*\\)" 1 font-lock-function-name-face))
  '("\\.janus\\(-cells\\)?\\'")
  nil
  "Cells and programs of Janus.")

(provide 'janus-mode)
;;; janus-mode.el ends here
