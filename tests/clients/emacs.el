;;; Opens the file that HLASM_TEST_FILE names, awaits the server's list, types the missing END, awaits the list again, comments a
;;; line, and writes what was seen into the file that HLASM_TEST_RECORD names, as JSON.  -*- lexical-binding: t; -*-
(require 'hlasm-ls)
(require 'flymake)

(setq hlasm-ls-command (list (getenv "HLASM_TEST_SERVER") "serve")
      eglot-sync-connect t)

(defun await (what test)
  "Wait until TEST holds; WHAT is awaited."
  (let ((end (+ (float-time) 60)))
    (while (not (funcall test))
      (when (> (float-time) end) (error "Not within 60 seconds: %s" what))
      (accept-process-output nil 0.05)
      (read-event nil nil 0.01)))) ; in which Emacs sees that files changed

(defun shown ()
  "What Emacs shows: line, severity and text of each diagnostic, by line."
  (sort (mapcar (lambda (it)
                  (vector (line-number-at-pos (flymake-diagnostic-beg it))
                          (if (eq (flymake-diagnostic-type it) 'eglot-error) "error" "warning")
                          (flymake-diagnostic-text it)))
                (flymake-diagnostics))
        (lambda (a b) (< (aref a 0) (aref b 0)))))

(defun offered ()
  "What Emacs can ask of the server besides lists."
  (vconcat (mapcar #'symbol-name
                   (seq-filter #'eglot--server-capable
                               '(:hoverProvider :definitionProvider :referencesProvider :documentSymbolProvider)))))

(find-file (getenv "HLASM_TEST_FILE"))
(apply #'eglot (eglot--guess-contact))
(flymake-start)
(await "the first list" (lambda () (= 3 (length (flymake-diagnostics)))))
(defvar first-list (shown))
(goto-char (point-max))
(insert "         END\n")
(eglot--signal-textDocument/didChange) ; as eglot does when Emacs is idle, which it never is in batch mode
(await "the list with END" (lambda () (= 2 (length (flymake-diagnostics)))))
(defvar second-list (shown))
(goto-char (point-min))
(forward-line 7)
(comment-line 1)
(forward-line -1)
(defvar commented (buffer-substring (line-beginning-position) (line-end-position)))
(comment-line 1)
(forward-line -1)
(defvar uncommented (buffer-substring (line-beginning-position) (line-end-position)))
(goto-char (point-min))
(insert "\n")
(goto-char (point-min))
(indent-for-tab-command)
(insert "LR")
(indent-for-tab-command)
(defvar typed (buffer-substring (line-beginning-position) (line-end-position)))
(defvar server (eglot-current-server))
(defvar asked (offered))
(eglot-shutdown server)

;; A program, and a macro in a library that it calls: each thing that happens to the macro changes the program's list.
(defvar workspace (getenv "HLASM_TEST_WORKSPACE"))
(defvar macro-file (expand-file-name "lib/SHR.mac" workspace))
(defvar groups (expand-file-name ".hlasmplugin/proc_grps.json" workspace))
(defvar seen nil)

(defun see (what text)
  "Wait until TEXT, or nothing if it is nil, is all that the program's list says; WHAT is awaited."
  (await what (lambda ()
                (with-current-buffer program
                  (equal (and text (list text)) (mapcar #'flymake-diagnostic-text (flymake-diagnostics))))))
  (push what seen))

(defun write-outside (path text)
  "Write TEXT into the file at PATH, as another program would."
  (write-region text nil path nil 'quiet))

(find-file (expand-file-name "p.hlasm" workspace))
(defvar program (current-buffer))
(apply #'eglot (eglot--guess-contact))
(flymake-start)
(see "no macro" "hlasm_ls [H040]: operation SHR is not defined")
(write-outside macro-file "         MACRO\n         SHR\n         MEND\n")
(see "a macro" nil)
(find-file macro-file)
(eglot--maybe-activate-editing-mode)
(forward-line 2)
(insert "         MNOTE 8,'x'\n")
(eglot--signal-textDocument/didChange)
(see "an edited macro" "hlasm_ls [MNOTE]: x")
(set-buffer-modified-p nil)
(kill-buffer)
(see "a macro that was not saved" nil)
(write-outside groups "{\"pgroups\":[]}")
(see "settings without a library" "hlasm_ls [H040]: operation SHR is not defined")
(write-outside groups (getenv "HLASM_TEST_GROUPS"))
(see "settings with the library" nil)
(delete-file macro-file)
(see "no macro again" "hlasm_ls [H040]: operation SHR is not defined")
(with-current-buffer program
  (eglot-shutdown (eglot-current-server)))

(defvar record
  `((mode . ,(symbol-name major-mode)) (first . ,(vconcat first-list)) (second . ,(vconcat second-list))
    (commented . ,commented) (uncommented . ,uncommented) (typed . ,typed) (asked . ,asked)
    (wrapped . ,(if truncate-lines :json-false t)) (tabs . ,(if indent-tabs-mode t :json-false))
    (seen . ,(vconcat (reverse seen)))
    (ruler . ,(if display-fill-column-indicator-mode display-fill-column-indicator-column 0))))
(with-temp-file (getenv "HLASM_TEST_RECORD")
  (insert (json-encode record)))
(set-buffer-modified-p nil)
