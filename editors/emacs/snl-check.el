;;; snl-check.el --- Findings of SNL sources in Emacs  -*- lexical-binding: t; -*-

;;; Commentary:

;; M-x compile with snl-check, or ./check, has its lines found, those with W as warnings.
;; `snl-check-flymake' checks as one types: to have it in a buffer, call it and turn on
;; `flymake-mode', as by (add-hook 'find-file-hook #'snl-check-find-file) for all .st and .stt files
;; that have SNL in them.

;;; Code:

(require 'compile)
(require 'flymake)

(defgroup snl-check nil "Findings of SNL sources." :group 'tools)

(defcustom snl-check-command "snl-check"
  "The command that checks SNL sources."
  :type 'string)

;; Error or warning is told by the group that is there.
(add-to-list 'compilation-error-regexp-alist-alist
             '(snl-check
               "^\\(.+?\\):\\([0-9]+\\):\\(?:\\([0-9]+\\):\\)? \\(?:E\\|\\(W\\)\\)[0-9]\\{2\\} [^:\n]*$"
               1 2 3 (4)))
(add-to-list 'compilation-error-regexp-alist 'snl-check)

(defvar-local snl-check--process nil "The check of this buffer that is under way.")

(defun snl-check--region (source line column)
  "Return the region of what is at LINE of the buffer SOURCE.
COLUMN counts the bytes of the line; without it the region is the line."
  (with-current-buffer source
    (save-restriction
      (widen)
      (save-excursion
        (goto-char (point-min))
        (forward-line (1- line))
        (let* ((first (point))
               (place (and column (byte-to-position (+ (position-bytes first) column -1)))))
          (flymake-diag-region source line (and place (1+ (- place first)))))))))

(defun snl-check--diagnostics (source)
  "Return what the check in this buffer found in the buffer SOURCE."
  (goto-char (point-min))
  (let (found)
    (while (re-search-forward
            "^<stdin>:\\([0-9]+\\):\\(?:\\([0-9]+\\):\\)? \\(\\([EW]\\)[0-9][0-9] .*\\)$" nil t)
      (let* ((line (string-to-number (match-string 1)))
             (column (and (match-string 2) (string-to-number (match-string 2))))
             (type (if (equal (match-string 4) "E") :error :warning))
             (text (match-string 3))
             (region (snl-check--region source line column)))
        (push (flymake-make-diagnostic source (car region) (cdr region) type text) found)))
    found))

(defun snl-check--ended (process source report)
  "Tell REPORT what PROCESS found in SOURCE, unless a later check is under way."
  (when (memq (process-status process) '(exit signal))
    (unwind-protect
        (when (and (buffer-live-p source)
                   (eq process (buffer-local-value 'snl-check--process source)))
          (with-current-buffer (process-buffer process)
            (if (memq (process-exit-status process) '(0 1))
                (funcall report (snl-check--diagnostics source))
              (funcall report :panic :explanation (buffer-string)))))
      (kill-buffer (process-buffer process)))))

(defun snl-check-backend (report &rest _)
  "Check the buffer's text as it is, and tell REPORT what is found.
It is one of `flymake-diagnostic-functions'."
  (when (process-live-p snl-check--process)
    (kill-process snl-check--process))
  (let ((source (current-buffer))
        ;; After the preprocessor columns are not those of the file.
        (word (if (and buffer-file-name (string-suffix-p ".st" buffer-file-name))
                  "--cpp"
                "--report")))
    (setq snl-check--process
          (make-process
           :name "snl-check" :noquery t :connection-type 'pipe
           :buffer (generate-new-buffer " *snl-check*")
           :command (list snl-check-command "--quiet" word "-")
           :sentinel (lambda (process _) (snl-check--ended process source report))))
    (save-restriction
      (widen)
      (process-send-region snl-check--process (point-min) (point-max)))
    (process-send-eof snl-check--process)))

(defun snl-check-flymake ()
  "Have flymake check this buffer with `snl-check-backend'."
  (interactive)
  (add-hook 'flymake-diagnostic-functions #'snl-check-backend nil t)
  (flymake-mode 1))

(defun snl-check-find-file ()
  "Call `snl-check-flymake' in a file .st or .stt that has SNL in it."
  (let ((case-fold-search nil))
    (when (and buffer-file-name (string-match-p "\\.stt?\\'" buffer-file-name)
               (save-excursion
                 (goto-char (point-min))
                 (re-search-forward "^[ \t]*\\(?:\\(?:program\\|ss\\)[ \t]+[a-zA-Z_]\\|%[%{]\\)"
                                    nil t)))
      ;; Columns of findings count bytes, and so no columns of the screen.
      (setq-local compilation-error-screen-columns nil)
      (snl-check-flymake))))

(provide 'snl-check)
;;; snl-check.el ends here
