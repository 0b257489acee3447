;;; dap-rewind.el --- rewind in dap-mode -*- lexical-binding: t; -*-

;; Debugs the scripts of rewind with its adapter, tools/dap (docs/EDITOR.md).

;;; Code:

(require 'dap-mode)
(require 'dap-ui)

(defvar treemacs-text-scale nil
  "Read by lsp-treemacs; treemacs before 3.0, as in Debian 12, does not define it.")

(defvar dap-rewind-adapter
  (expand-file-name "../../tools/dap" (file-name-directory (or load-file-name buffer-file-name)))
  "The path of the adapter.")

(defvar dap-rewind--conditions nil
  "The conditions at which the current session stops.")

(defvar dap-rewind--entries nil
  "The entries of views at whose change the current session stops.")

(defun dap-rewind--configured (conf)
  "Complete the launch configuration CONF."
  (let ((name (file-name-base (plist-get conf :program))))
    (setq dap-rewind--conditions nil dap-rewind--entries nil)
    (append conf
            (list :dap-server-path (list dap-rewind-adapter)
                  :stepsFile (make-temp-file (concat name "-") nil ".rewind")
                  :cleanup-function #'dap-rewind--cleaned))))

(defun dap-rewind--cleaned (session)
  "Remove the file with the kept steps of SESSION."
  (delete-file (plist-get (dap--debug-session-launch-args session) :stepsFile)))

(dap-register-debug-provider "rewind" #'dap-rewind--configured)

(defun dap-rewind (program processors)
  "Debug the script PROGRAM on so many PROCESSORS."
  (interactive (list (read-file-name "Script: " nil buffer-file-name t)
                     (read-number "Processors: " 1)))
  (dap-mode 1)
  (dap-ui-mode 1)
  (dap-debug (list :type "rewind" :request "launch" :name "rewind" :processors processors
                   :program (expand-file-name program)))
  (save-selected-window (dap-ui-locals)))

(defun dap-rewind--asked (command &rest arguments)
  "Send the request COMMAND with ARGUMENTS, and return the body of the response."
  (apply #'dap-request (dap--cur-active-session-or-die) command arguments))

(defun dap-rewind-back ()
  "Undo the last step."
  (interactive)
  (dap--step "stepBack" (dap--cur-active-session-or-die)))

(defun dap-rewind-reverse ()
  "Go back to where a breakpoint's condition turned, or to the start."
  (interactive)
  (dap--step "reverseContinue" (dap--cur-active-session-or-die)))

(defun dap-rewind-go-to (position)
  "Go to a POSITION among the kept steps; in their list, to that of this line."
  (interactive
   (list (if (string-suffix-p ".rewind" (or buffer-file-name ""))
             (1- (line-number-at-pos))
           (read-number "Position: "))))
  (let ((session (dap--cur-active-session-or-die)))
    (dap-rewind--asked "goto" :threadId (dap--debug-session-thread-id session)
                       :targetId (1+ position))))

(defun dap-rewind-why (place)
  "Say why the location PLACE is not finished: that at the cursor, or one that is typed."
  (interactive
   (list (or (thing-at-point 'symbol t) (read-string "Why is this location not finished? "))))
  (dap-eval place))

(defun dap-rewind-cancel ()
  "End the question that is being answered."
  (interactive)
  (dap-rewind--asked "cancel"))

(defun dap-rewind-break (condition)
  "Stop where CONDITION, as \"passed 0 out 0\", begins to hold.
Without one, remove all conditions."
  (interactive "sStop when: ")
  (setq dap-rewind--conditions
        (unless (string-empty-p condition) (append dap-rewind--conditions (list condition))))
  (dap-rewind--set "setFunctionBreakpoints" :name dap-rewind--conditions))

(defun dap-rewind-watch (entry)
  "Stop where ENTRY of the thread's view, as \"words 0\", changes.
Without one, remove all entries."
  (interactive "sStop when this changes in the view: ")
  (let ((frame (dap--debug-session-active-frame (dap--cur-active-session-or-die))))
    (setq dap-rewind--entries
          (unless (string-empty-p entry)
            (append dap-rewind--entries
                    (list (or (gethash "dataId" (dap-rewind--asked "dataBreakpointInfo" :name entry
                                                                   :frameId (gethash "id" frame)))
                              (user-error "%s is not a location with a time" entry))))))
    (dap-rewind--set "setDataBreakpoints" :dataId dap-rewind--entries)))

(defun dap-rewind--set (command key values)
  "Set breakpoints by COMMAND, with the VALUES under KEY.
Say what came of the last one."
  (let* ((wanted (vconcat (mapcar (lambda (it) (list key it)) values)))
         (told (gethash "breakpoints" (dap-rewind--asked command :breakpoints wanted)))
         (it (car (last told))))
    (message "%s" (cond ((not it) "no breakpoint of this kind is set")
                        ((gethash "verified" it) (concat "stops where: " (gethash "message" it)))
                        (t (gethash "message" it))))))

(defvar dap-rewind-map
  (let ((map (make-sparse-keymap)))
    (pcase-dolist (`(,key . ,command)
                   '(("n" . dap-next) ("p" . dap-rewind-back) ("c" . dap-continue)
                     ("r" . dap-rewind-reverse) ("g" . dap-rewind-go-to) ("e" . dap-step-out)
                     ("b" . dap-rewind-break) ("w" . dap-rewind-watch)
                     ("y" . dap-rewind-why) ("k" . dap-rewind-cancel) (":" . dap-ui-repl)
                     ("t" . dap-switch-thread) ("l" . dap-ui-locals) ("q" . dap-disconnect)))
      (define-key map key command))
    map)
  "Keys of a session, for a prefix of your own.")

(defun dap-rewind--stay (go session &rest arguments)
  "Call GO on SESSION with ARGUMENTS; who types in the debug console stays there."
  (if (and (equal (plist-get (dap--debug-session-launch-args session) :type) "rewind")
           (eq (buffer-local-value 'major-mode (window-buffer)) 'dap-ui-repl-mode))
      (save-selected-window (apply go session arguments))
    (apply go session arguments)))

(advice-add 'dap--go-to-stack-frame :around #'dap-rewind--stay)

;; The list of kept steps is only read, and changes with each new step. Reasons are long.
(add-to-list 'auto-mode-alist '("\\.rewind\\'" . special-mode))
(add-to-list 'revert-without-query "\\.rewind\\'")
(setq dap-ui-variable-length (max dap-ui-variable-length 200))
(setf (alist-get dap-ui--locals-buffer dap-ui-buffer-configurations nil nil #'equal)
      '((side . right) (slot . 1) (window-width . 0.5)))

(provide 'dap-rewind)
;;; dap-rewind.el ends here
