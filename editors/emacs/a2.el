;;; a2.el --- Sources for a2 in Emacs: errors while you write, and a debugger that steps back  -*- lexical-binding: t -*-

;; Add to ~/.emacs:
;;
;;   (load "/usr/share/doc/a2/editors/emacs/a2.el")
;;
;; Errors while you write need eglot: Emacs 29 and later has it; for 28 install Debian's package elpa-eglot.
;; The debugger needs dap-mode: Debian's package elpa-dap-mode.

(defvar a2-program "a2lab"
  "The program a2lab: its name, if it is on the path, or its whole path.")

(define-derived-mode a2-mode prog-mode "a2"
  "Mode for 6502 sources."
  (setq-local comment-start ";"))

(add-to-list 'auto-mode-alist '("\\.s\\'" . a2-mode))

;; Errors while you write

(with-eval-after-load 'eglot
  (add-to-list 'eglot-server-programs (list 'a2-mode a2-program "lsp")))

(when (locate-library "eglot")
  (autoload 'eglot-ensure "eglot")
  (add-hook 'a2-mode-hook #'eglot-ensure))

;; The debugger

(defun a2-debug-configuration (configuration)
  "Returns a configuration of the debugger with the command that it starts."
  (plist-put configuration :dap-server-path (list a2-program "dap")))

(with-eval-after-load 'dap-mode
  (require 'dap-ui)
  ;; Debian 12's treemacs does not define this, and the window of registers needs it
  (defvar treemacs-text-scale nil)
  (dap-ui-mode 1)
  (dap-register-debug-provider "a2lab" #'a2-debug-configuration)
  (dap-register-debug-template
   "Run this source" '(:type "a2lab" :request "launch" :program "${file}" :stopOnEntry t))
  ;; dap-mode does not show log points otherwise
  (add-to-list 'dap-output-buffer-filter "console"))

(defun a2-step-back ()
  "Goes back by one instruction."
  (interactive)
  (dap--step "stepBack" (dap--cur-active-session-or-die)))

(defun a2-reverse-continue ()
  "Goes back to the latest earlier breakpoint or change, or to the start."
  (interactive)
  (dap--step "reverseContinue" (dap--cur-active-session-or-die)))

(defun a2-show-registers ()
  "Shows the registers, flags, names and the Monitor's locations beside the source."
  (interactive)
  (require 'dap-ui)
  (save-selected-window (dap-ui-locals)))

(dolist (it '(("C-c C-d" . dap-debug) ("C-c C-t" . dap-breakpoint-toggle) ("C-c C-c" . dap-continue) ("C-c C-n" . dap-next)
              ("C-c C-s" . dap-step-in) ("C-c C-o" . dap-step-out) ("C-c C-b" . a2-step-back) ("C-c C-r" . a2-reverse-continue)
              ("C-c C-v" . a2-show-registers)))
  (autoload (cdr it) "dap-mode" nil t)
  (define-key a2-mode-map (kbd (car it)) (cdr it)))

(provide 'a2)
;;; a2.el ends here
