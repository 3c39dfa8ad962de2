;;; hlasm-ls.el --- HLASM files with the language server hlasm_ls, by eglot  -*- lexical-binding: t; -*-

;; Package-Requires: ((emacs "28.1") (eglot "1.8"))

;;; Commentary:

;; The server for files in `hlasm-mode', which comes with it:
;;
;;     (add-to-list 'load-path "/path/to/clients/emacs")
;;     (require 'hlasm-ls)
;;     (add-hook 'hlasm-mode-hook #'eglot-ensure)
;;
;; If hlasm_ls is not on the PATH, customize `hlasm-ls-command'.

;;; Code:

(require 'cl-lib)
(require 'eglot)
(require 'filenotify)
(require 'hlasm-mode)
(require 'json)
(require 'project)
(require 'url-util)

(defgroup hlasm-ls nil
  "HLASM files with the language server hlasm_ls."
  :group 'languages)

(defcustom hlasm-ls-command '("hlasm_ls" "serve")
  "The words that start the server."
  :type '(repeat string))

(defconst hlasm-ls--settings ".hlasmplugin"
  "The folder that makes the folder it stands in a workspace.")

(add-to-list 'eglot-server-programs '(hlasm-mode . (lambda (&rest _) hlasm-ls-command)))

;;; The workspace

(defun hlasm-ls--root (path)
  "The nearest folder at or above PATH that has settings, or nil."
  (locate-dominating-file path (lambda (folder)
                                 (file-directory-p (expand-file-name hlasm-ls--settings folder)))))

(defun hlasm-ls-project (folder)
  "The workspace of FOLDER as a project, or nil."
  (when-let ((root (hlasm-ls--root folder)))
    (cons 'hlasm-ls (expand-file-name root))))

(cl-defmethod project-root ((project (head hlasm-ls)))
  "The folder of PROJECT."
  (cdr project))

(defun hlasm-ls--find-project (folder)
  "The workspace of FOLDER, for buffers in `hlasm-mode'."
  (when (derived-mode-p 'hlasm-mode)
    (hlasm-ls-project folder)))

(add-hook 'project-find-functions #'hlasm-ls--find-project)

;;; Files in library folders, which need no extension

(defun hlasm-ls--groups (root)
  "The groups of libraries of the workspace ROOT."
  (ignore-errors
    (with-temp-buffer
      (insert-file-contents (expand-file-name (concat hlasm-ls--settings "/proc_grps.json") root))
      (alist-get 'pgroups (json-parse-buffer :object-type 'alist :array-type 'list)))))

(defun hlasm-ls--library-paths (root)
  "The library folders of the workspace ROOT, as its settings write them."
  (let (paths)
    (dolist (group (hlasm-ls--groups root))
      (dolist (library (ignore-errors (alist-get 'libs group)))
        (let ((path (if (stringp library) library (ignore-errors (alist-get 'path library)))))
          (when (stringp path)
            (push path paths)))))
    paths))

(defun hlasm-ls--libraries (root)
  "The library folders of the workspace ROOT."
  (mapcar (lambda (path) (file-name-as-directory (file-truename (expand-file-name path root))))
          (hlasm-ls--library-paths root)))

(defun hlasm-ls--member-p ()
  "Whether the buffer's file stands in a library folder of its workspace."
  (when-let* ((path buffer-file-name)
              (root (hlasm-ls--root path)))
    (member (file-truename (file-name-directory path)) (hlasm-ls--libraries root))))

(add-to-list 'magic-mode-alist '(hlasm-ls--member-p . hlasm-mode))

;;; What changes outside Emacs

;; The server asks for nothing of the kind, so eglot watches nothing by itself.
(cl-defstruct hlasm-ls--watching
  "What is watched for a server: its workspace, the watches, and the paths that changed and were not told yet."
  root watches changed)

(defvar hlasm-ls--watching (make-hash-table :test #'eq)
  "What is watched for each server.")

(defconst hlasm-ls--pause 0.1
  "What changes within so many seconds is told in one message.")

(defun hlasm-ls--watched-folders (root)
  "The folders whose files the server reads, as it names them: the settings and the libraries of the workspace ROOT."
  (delete-dups
   (cons (concat root "/" hlasm-ls--settings)
         (mapcar (lambda (path)
                   (string-remove-suffix "/" (if (string-prefix-p "/" path) path (concat root "/" path))))
                 (hlasm-ls--library-paths root)))))

(defun hlasm-ls--unwatch (server)
  "End what is watched for SERVER."
  (when-let ((it (gethash server hlasm-ls--watching)))
    (mapc #'file-notify-rm-watch (hlasm-ls--watching-watches it))
    (remhash server hlasm-ls--watching)))

(defun hlasm-ls--change (path)
  "The change of the file at PATH, as the protocol has it: one that is there may be told as changed, new or not."
  (list :uri (concat "file://" (url-hexify-string path url-path-allowed-chars))
        :type (if (file-exists-p path) 2 3)))

(defun hlasm-ls--tell (server)
  "Tell SERVER what changed, in order of the paths, and follow the settings."
  (when-let ((it (gethash server hlasm-ls--watching)))
    (if (not (jsonrpc-running-p server))
        (hlasm-ls--unwatch server)
      (let ((paths (sort (hlasm-ls--watching-changed it) #'string<))
            (root (hlasm-ls--watching-root it)))
        (setf (hlasm-ls--watching-changed it) nil)
        (jsonrpc-notify server :workspace/didChangeWatchedFiles (list :changes (vconcat (mapcar #'hlasm-ls--change paths))))
        (when (member (concat root "/" hlasm-ls--settings "/proc_grps.json") paths)
          (hlasm-ls--watch server))))))

(defun hlasm-ls--note (server folder event)
  "Note for SERVER the files of FOLDER that EVENT names, to be told soon."
  (when-let ((it (gethash server hlasm-ls--watching)))
    (dolist (file (and (memq (nth 1 event) '(created changed deleted renamed)) (nthcdr 2 event)))
      (when (stringp file)
        (unless (hlasm-ls--watching-changed it)
          (run-with-timer hlasm-ls--pause nil #'hlasm-ls--tell server))
        (cl-pushnew (concat folder "/" (file-name-nondirectory file)) (hlasm-ls--watching-changed it) :test #'equal)))))

(defun hlasm-ls--watch (server)
  "Watch the libraries and the settings of the workspace of SERVER, in place of what was watched for it."
  (let ((project (eglot--project server)))
    (when (eq (car-safe project) 'hlasm-ls)
      (hlasm-ls--unwatch server)
      (let* ((root (directory-file-name (file-truename (cdr project))))
             (it (make-hlasm-ls--watching :root root)))
        (puthash server it hlasm-ls--watching)
        (dolist (folder (hlasm-ls--watched-folders root))
          (when (file-directory-p folder)
            (push (file-notify-add-watch folder '(change) (lambda (event) (hlasm-ls--note server folder event)))
                  (hlasm-ls--watching-watches it))))))))

(add-hook 'eglot-server-initialized-hook #'hlasm-ls--watch)

(provide 'hlasm-ls)

;;; hlasm-ls.el ends here
