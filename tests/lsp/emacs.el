;; Opens p.stt in emacs with eglot and the server, changes it, asks of it, and writes what is shown
;; to the file told.
(setq create-lockfiles nil make-backup-files nil)
(require 'eglot)
(require 'flymake)
(define-derived-mode snl-mode prog-mode "SNL")
(defvar lines nil)
(defvar published 0)
(cl-defmethod eglot-handle-notification :after
  (_server (_method (eql textDocument/publishDiagnostics)) &rest _)
  (setq published (1+ published)))

(defun tell (&rest words) (push (apply #'format words) lines))

(defun wait-for (test)
  (let ((end (+ (float-time) 9)))
    (while (and (not (funcall test)) (< (float-time) end)) (accept-process-output nil 0.05))
    (funcall test)))

;; Waits for the next publish, where one was asked for, and tells what is shown.
(defun tell-shown (tag count)
  (tell (if (wait-for (lambda () (>= published count))) "%s" "%s: no answer") tag)
  (flymake-start)
  (dolist (it (sort (flymake-diagnostics)
                    (lambda (one other)
                      (< (flymake-diagnostic-beg one) (flymake-diagnostic-beg other)))))
    (let ((beg (flymake-diagnostic-beg it)) (end (flymake-diagnostic-end it)))
      (tell "%d:%s %s %s" (line-number-at-pos beg) (buffer-substring beg end)
            (flymake-diagnostic-type it) (flymake-diagnostic-text it)))))

(defun change (tag)
  (let ((count (1+ published)))
    (eglot--signal-textDocument/didChange)
    (tell-shown tag count)))

;; Tells what eglot gives imenu: names by their kinds, with the line of each, and what they are in.
(defun tell-index (entry tag)
  (if (consp (cdr entry))
      (dolist (it (cdr entry)) (tell-index it (concat tag (car entry) " ")))
    (tell "%s%s:%d" tag (car entry) (line-number-at-pos (cdr entry)))))

;; Tells the symbols, where the name at point is declared, where it is named, and what is told of
;; it.
(defun tell-asked ()
  (dolist (entry (funcall imenu-create-index-function)) (tell-index entry ""))
  (dolist (it (xref-backend-definitions 'eglot (xref-backend-identifier-at-point 'eglot)))
    (let ((place (xref-item-location it)))
      (tell "declared in line %d" (xref-location-line place))))
  (dolist (it (xref-backend-references 'eglot (xref-backend-identifier-at-point 'eglot)))
    (tell "named in line %d" (xref-location-line (xref-item-location it))))
  (tell "marked %d times"
        (length (jsonrpc-request (eglot-current-server) :textDocument/documentHighlight
                                 (eglot--TextDocumentPositionParams))))
  (let ((hover (jsonrpc-request (eglot-current-server) :textDocument/hover
                                (eglot--TextDocumentPositionParams))))
    (tell "%s" (plist-get (plist-get hover :contents) :value))))

(find-file "p.stt")
(snl-mode)
(eglot--connect '(snl-mode) (cons 'transient default-directory) 'eglot-lsp-server
                (list (getenv "SERVER")) "snl")
(tell-shown "opened" 1)
(goto-char (point-min))
(forward-line 1)
(insert "/* ä😀 */ evflag f = 1; ")
(change "after wide characters")
(goto-char (point-max))
(insert "int z")
(change "a line that is begun")
(insert ";\n")
(change "finished")
(goto-char (point-min))
(while (search-forward "x" nil t) (replace-match "xx" t t))
(change "several changes")
(let ((text (buffer-string)))
  (erase-buffer)
  (change "nothing left")
  (insert text)
  (change "undone"))
(tell "asked")
(goto-char (point-min))
(search-forward "when (x")
(tell-asked)
(set-buffer-modified-p nil)
(let ((server (eglot-current-server)))
  (ignore-errors (eglot-shutdown server))
  (tell (if (wait-for (lambda () (not (jsonrpc-running-p server)))) "stopped" "not stopped")))
(write-region (mapconcat (lambda (it) (concat it "\n")) (reverse lines) "") nil "told")
