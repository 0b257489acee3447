;;; session.el --- a session of rewind in dap-mode -*- lexical-binding: t; -*-

;; Does what a person does, by the keys of dap-rewind.el, and writes what the windows show to a file.

;;; Code:

(setq native-comp-async-report-warnings-errors 'silent)
(load (getenv "REWIND_ELISP"))
(global-set-key (kbd "C-c d") dap-rewind-map)
(setq dap-rewind-adapter (getenv "REWIND_ADAPTER") dap-ui-locals-expand-depth t)

(defvar shown 0 "How many stops were shown.")
(defvar seen nil "What was seen, the last first.")

(advice-add 'dap--go-to-stack-frame :after (lambda (&rest _) (setq shown (1+ shown))))
(advice-add 'dap-overlays--display-interactive-eval-result :after (lambda (it &rest _) (note it)))

(defun wait-until (what)
  "Wait until WHAT, at most a minute."
  (let ((end (+ (float-time) 60)))
    (while (and (not (funcall what)) (< (float-time) end))
      (accept-process-output nil 0.05))))

(defun note (text)
  "Keep TEXT as something that was seen."
  (push text seen))

(defun note-place ()
  "Keep which line is shown."
  (with-current-buffer (window-buffer)
    (note (format "%s line %d" (buffer-name) (line-number-at-pos (window-point))))))

(defun stop-after (work)
  "Do WORK, and keep which line is shown after the stop that follows."
  (let ((before shown))
    (funcall work)
    (wait-until (lambda () (> shown before)))
    (note-place)))

(defun press-key (key)
  "Press KEY after the prefix."
  (call-interactively (key-binding (kbd (concat "C-c d " key)))))

(defun press (key)
  "Press KEY after the prefix, and wait for the stop."
  (stop-after (lambda () (press-key key))))

(defun say-after (work)
  "Do WORK, and wait for what is said of it."
  (let ((before seen))
    (funcall work)
    (wait-until (lambda () (not (eq seen before))))))

(defun note-variables ()
  "Keep the window of variables."
  (dap-ui-locals--refresh)
  (with-current-buffer dap-ui--locals-buffer
    (note (replace-regexp-in-string "[ \n]*\\'" "" (buffer-substring-no-properties (point-min) (point-max))))))

(defun go ()
  "The session."
  (let ((script (getenv "REWIND_SCRIPT")))
    (find-file script)
    (stop-after (lambda () (dap-rewind script 2))))
  (note-variables)
  (dap-rewind-break "passed 0 out 0")
  (note (current-message))
  (dap-rewind-break "view 0 words 0 1")
  (dap-rewind-watch "total 0")
  (dap-rewind-watch "")
  (dotimes (_ 3) (press "c"))
  (note-variables)
  (press "p")
  (with-current-buffer (window-buffer)
    (say-after (lambda () (dap-eval "why 0 out 0")))
    (say-after (lambda ()
                 (dap-eval "reach count out 0 99 feed limit 1000000")
                 (sleep-for 1)
                 (press-key "k")))
    (goto-char (point-max))
    (say-after (lambda ()
                 (let ((unread-command-events (listify-key-sequence "total\r")))
                   (press-key "y")))))
  (press "r")
  (press "n")
  (stop-after (lambda () (dap-rewind-go-to 3)))
  (let ((session (dap--cur-session)))
    (dap-disconnect session)
    (wait-until (lambda () (not (dap--session-running session))))))

(condition-case fault (go) (error (note (format "%S" fault))))
(with-temp-file (getenv "REWIND_SEEN")
  (dolist (it (reverse seen)) (insert it "\n")))
(kill-emacs)
;;; session.el ends here
