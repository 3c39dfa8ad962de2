;;; Writes down, for each character of the file, the letter of its colour, into the file that HLASM_TEST_RECORD names.
;;; Comments and remarks have one face, so both are C here.  -*- lexical-binding: t; -*-
(require 'hlasm-mode)
(require 'subr-x)

(defconst letters
  '((font-lock-function-name-face . ?N) (font-lock-keyword-face . ?O) (font-lock-preprocessor-face . ?O) (font-lock-builtin-face . ?O)
    (nil . ?P) (font-lock-variable-name-face . ?V) (font-lock-string-face . ?Q) (font-lock-comment-face . ?C)
    (hlasm-unread . ?S) (hlasm-mark . ?M) (hlasm-margin . ?E)))

(defun letter-at (at)
  (if (memq (char-after at) '(?\s ?\t)) ?\s
    (alist-get (get-text-property at 'face) letters ??)))

(find-file "example.hlasm")
(font-lock-mode 1)
(font-lock-ensure)
(let ((rows nil))
  (while (not (eobp))
    (push (string-trim-right (concat (mapcar #'letter-at (number-sequence (point) (1- (line-end-position)))))) rows)
    (forward-line 1))
  (with-temp-file (getenv "HLASM_TEST_RECORD")
    (insert (string-join (nreverse rows) "\n") "\n")))
