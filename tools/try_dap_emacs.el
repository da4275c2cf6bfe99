;;; Has Emacs, by dap-mode, debug the source FILE with the lines INIT of the page, and writes what it shows into the file
;;; SEEN. tools/try-dap compares it.
(require 'json)
(require 'dap-ui)
(load (getenv "INIT") nil t)

(defun try-wait-until (is-so)
  "Waits until IS-SO gives something, for at most thirty seconds, and gives that."
  (let ((end (+ (float-time) 30)) found)
    (while (and (not (setq found (funcall is-so))) (< (float-time) end))
      (accept-process-output nil .02))
    found))

(defun try-place ()
  "The line of the point, once the program stands, and the names of the calls."
  (let ((session (dap--cur-session)))
    (try-wait-until (lambda () (dap--debug-session-active-frame session)))
    (vconcat (list (line-number-at-pos))
             (mapcar (lambda (it) (gethash "name" it))
                     (gethash 1 (dap--debug-session-thread-stack-frames session))))))

(defun try-text (buffer wanted)
  "The line of BUFFER with WANTED in it, once that is there."
  (with-current-buffer buffer
    (try-wait-until (lambda () (goto-char (point-min)) (search-forward wanted nil t)))
    (string-trim (buffer-substring-no-properties (line-beginning-position) (line-end-position)))))

(defun try-type (text wanted)
  "Types TEXT into the console, and gives its line with WANTED in it."
  (dap-ui-repl)
  (with-current-buffer dap-ui--repl-buffer
    (goto-char (point-max))
    (insert text)
    (comint-send-input))
  (prog1 (try-text dap-ui--repl-buffer wanted)
    (select-window (get-buffer-window (find-buffer-visiting (getenv "FILE")) t))))

(defun try-move (command &rest more)
  "Does COMMAND, and tells where the program stands then."
  (if more (apply command more) (call-interactively command))
  (try-place))

(find-file (getenv "FILE"))
(goto-char (point-min))
(search-forward "total =+ x;")
(dap-breakpoint-add)
(let* ((seen (list (cons 'entry (try-move #'dap-debug (copy-tree (cdr (assoc "B" dap-debug-template-configurations)))))))
       (add (lambda (name value) (push (cons name value) seen))))
  (funcall add 'given (try-type ":input 345" "\n\n>> "))
  (funcall add 'marked (hash-table-count (dap--debug-session-breakpoints (dap--cur-session))))
  (funcall add 'breakpoint (try-move #'dap-continue))
  (dap-ui-locals--refresh)
  (funcall add 'local (try-text dap-ui--locals-buffer "x"))
  (funcall add 'typed (try-type "total + 40" "40 "))
  (funcall add 'again (try-move #'dap-continue))
  (funcall add 'next (try-move #'dap-next))
  (funcall add 'back (try-move #'b-step-back))
  (funcall add 'out (try-move #'dap-step-out))
  (funcall add 'before (try-move #'b-reverse-continue))
  (dap-breakpoint-delete-all)
  (dap-continue (dap--cur-session) 1)
  (try-wait-until (lambda () (not (dap--session-running (dap--cur-session)))))
  (funcall add 'end (symbol-name (dap--debug-session-state (dap--cur-session))))
  (funcall add 'written (try-text (dap--debug-session-output-buffer (dap--cur-session)) "status"))
  (with-temp-file (getenv "SEEN") (insert (json-encode seen))))
(kill-emacs 0)
