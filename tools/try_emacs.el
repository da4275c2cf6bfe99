;;; Has Emacs, by eglot, talk to the language server about the source FILE, and writes what it shows into the file SEEN.
;;; tools/try-editors compares it.
(require 'eglot)
(require 'json)

(define-derived-mode b-mode prog-mode "B" (setq-local comment-start "/*" comment-end "*/"))
(add-to-list 'auto-mode-alist '("\\.b\\'" . b-mode))
(add-to-list 'eglot-server-programs (list 'b-mode (getenv "SERVER")))

(defun try-wait-for (count)
  "Waits until there are COUNT findings, for at most thirty seconds, and gives their first lines."
  (let ((end (+ (float-time) 30)))
    (while (and (/= (length (flymake-diagnostics)) count) (< (float-time) end))
      (accept-process-output nil .05)))
  (vconcat (mapcar (lambda (it) (car (split-string (flymake-diagnostic-text it) "\n"))) (flymake-diagnostics))))

(defun try-put (from to)
  "Writes TO in the place of FROM."
  (goto-char (point-min))
  (search-forward from)
  (replace-match to t t))

(find-file (getenv "FILE"))
(apply #'eglot--connect (eglot--guess-contact))
(let ((seen (list (cons 'source (try-wait-for 1)))))
  (try-put "i = 5\n" "i=5;\n")
  (try-put "i, other" "i")
  (eglot--signal-textDocument/didChange)
  (push (cons 'mended (try-wait-for 0)) seen)
  (eglot-format-buffer)
  (push (cons 'layout (buffer-substring-no-properties (point-min) (point-max))) seen)
  (goto-char (point-min))
  (search-forward "twice(i")
  (backward-char 3)
  (push (cons 'uses (length (xref-backend-references 'eglot "twice"))) seen)
  (eglot-rename "thrice")
  (goto-char (point-min))
  (push (cons 'renamed (and (search-forward "thrice(n)\n" nil t) t)) seen)
  (with-temp-file (getenv "SEEN") (insert (json-encode seen))))
(set-buffer-modified-p nil)
(eglot-shutdown (eglot-current-server))
(kill-emacs 0)
