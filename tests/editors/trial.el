;;; trial.el --- what tests/editors/in_emacs.py reads -*- lexical-binding: t -*-
;; Writes reported.json five times a second: what is shown, the text, and whether the server has it.
(setq inhibit-startup-screen t make-backup-files nil auto-save-default nil create-lockfiles nil)
(defun trial-place (at)
  (save-excursion
    (goto-char at)
    (list (1- (line-number-at-pos)) (- (point) (line-beginning-position)))))
(defun trial-diagnostic (d)
  (vconcat (trial-place (flymake-diagnostic-beg d)) (trial-place (flymake-diagnostic-end d))
           (list (flymake-diagnostic-text d))))
(defun trial-overlay (overlay)
  (vconcat (trial-place (overlay-start overlay)) (trial-place (overlay-end overlay))
           (list (symbol-name (overlay-get overlay 'face)))))
(defun trial-overlays ()
  (let ((found (cl-remove-if-not (lambda (overlay) (overlay-get overlay 'lrls-token))
                                 (overlays-in (point-min) (point-max)))))
    (mapcar #'trial-overlay (sort found (lambda (a b) (< (overlay-start a) (overlay-start b)))))))
(defun trial-marked ()
  (cl-count-if (lambda (overlay) (overlay-get overlay 'flymake-diagnostic))
               (overlays-in (point-min) (point-max))))
(defun trial-text (server)
  (plist-get (jsonrpc-request server :lr/text `(:textDocument ,(eglot--TextDocumentIdentifier))) :text))
(defun trial-report ()
  (with-current-buffer "trial.sum"
    (let ((server (eglot-current-server))
          (text (buffer-substring-no-properties (point-min) (point-max))))
      (when server
        (write-region
         (json-serialize
          `(:diagnostics ,(vconcat (mapcar #'trial-diagnostic (flymake-diagnostics)))
            :marked ,(trial-marked)
            :colours ,(vconcat (trial-overlays))
            :text ,text :same ,(if (equal text (trial-text server)) t :false)))
         nil "reported.part" nil 'silent)
        (rename-file "reported.part" "reported.json" t)))))
;; From then on the server hears of no change.
(global-set-key (kbd "C-c z") (lambda () (interactive) (setq eglot-send-changes-idle-time 1000)))
(run-with-timer 0.5 0.2 #'trial-report)
