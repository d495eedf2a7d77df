;;; emacs.el --- serves languages by lrls in Emacs, with eglot  -*- lexical-binding: t -*-

;; Diagnostics while a text is typed, folds, colours, and a selection that follows the tree.  editors/README.md lists the
;; commands and the keys.  Load it by (load "PATH/editors/emacs.el") in init.el, and add languages of your own after it, as the
;; last lines of this file do.  It needs eglot, which is part of Emacs from 29 on.

;;; Code:

(require 'cl-lib)
(require 'eglot)

(defvar lrls-top
  (expand-file-name ".." (file-name-directory (or load-file-name buffer-file-name)))
  "The folder in which lrls lies.")

(defvar lrls-program (expand-file-name "lrls" lrls-top)
  "The script `lrls', or a program that `lrls install' copied.")

(defvar-local lrls-faces nil
  "The faces of tokens, as pairs of the name of a rule of the grammar and a face.")

(defvar-local lrls--folds nil
  "The folds, as pairs of markers at the ends of their first and last lines.")

(defvar-local lrls--tokens ""
  "The tokens of the text as the server writes them, in rows [\"NAME\",LINE,CHARACTER,LINE,CHARACTER].")

(defvar-local lrls--tick nil
  "The tick of the text that the tokens are of.")

(defvar-local lrls--pause 0
  "Three times as many seconds as the last answers took, so that hardly a key waits while Emacs reads them.")

(defvar-local lrls--grown nil
  "What was selected before each growth, the last first.")

(defvar lrls-coloured-columns 3000
  "Tokens that begin past so many columns of a line are not coloured.")

(defvar-local lrls--grammar-fault nil
  "What is wrong with the grammar in this buffer: the message and the places that it is about, or nil.")

(defvar lrls--languages nil
  "The languages, as lists of the mode and the grammar file.")

;; These have no dash too many from eglot 1.16 on.
(defalias 'lrls--path-to-uri (if (fboundp 'eglot-path-to-uri) 'eglot-path-to-uri 'eglot--path-to-uri))
(defalias 'lrls--uri-to-path (if (fboundp 'eglot-uri-to-path) 'eglot-uri-to-path 'eglot--uri-to-path))
(defalias 'lrls--range-region (if (fboundp 'eglot-range-region) 'eglot-range-region 'eglot--range-region))

;; The server.

(defclass lrls-server (eglot-lsp-server) ()
  "A server that lrls runs.")

(defun lrls--errors (server)
  "The file that SERVER writes its errors to."
  (car (last (process-command (jsonrpc--process server)))))

(defun lrls--grammar (server)
  "The grammar file of SERVER."
  (car (last (process-command (jsonrpc--process server)) 2)))

(defun lrls--log-nothing (server)
  "Keep what SERVER sends out of the buffer of events: to print all tokens of a long text takes seconds."
  (if (slot-exists-p server '-events-buffer-config)
      (setf (slot-value server '-events-buffer-config) '(:size 0))
    (setf (slot-value server '-events-buffer-scrollback-size) 0)))

(defun lrls--read-message (read)
  "What READ makes of the message in this buffer, but for the answer with tokens, which stays text.
Emacs 28 needs a second to make lists of all tokens of a megabyte, and only those on the screen are needed."
  (let ((process (get-buffer-process (current-buffer))))
    (if (and process
             (lrls-server-p (process-get process 'jsonrpc-connection))
             (looking-at "{\"id\":\\([0-9]+\\),\"jsonrpc\":\"2.0\",\"result\":\\[\\[\""))
        (list :id (string-to-number (match-string 1)) :jsonrpc "2.0" :result (buffer-substring-no-properties (point) (point-max)))
      (funcall read))))

(advice-add 'jsonrpc--json-read :around #'lrls--read-message)

(cl-defmethod eglot-client-capabilities :around ((_ lrls-server))
  "Ask for places that count characters, as Emacs does: to count anything else a line is read up to each place."
  (let ((capabilities (cl-call-next-method)))
    (plist-put capabilities :general
               (plist-put (copy-sequence (plist-get capabilities :general)) :positionEncodings ["utf-32"]))))

(cl-defmethod initialize-instance :after ((server lrls-server) &rest _)
  "Have the end of SERVER reported in its own words."
  (lrls--log-nothing server)
  (let ((errors (lrls--errors server)))
    (add-function :before (process-sentinel (jsonrpc--process server))
                  (lambda (process _event)
                    (unless (or (process-live-p process) (eglot--shutdown-requested server))
                      (lrls--report-end server process errors))))))

(defconst lrls--faulty-grammar 2
  "The status with which a server ends at a fault of its grammar.")

(defun lrls--show (text)
  "Show TEXT in a window of its own, below the others."
  (with-current-buffer (get-buffer-create "*lrls*")
    (special-mode)
    (let ((inhibit-read-only t))
      (erase-buffer)
      (insert text))
    (set-window-point (display-buffer (current-buffer) '((display-buffer-reuse-window display-buffer-at-bottom)
                                                         (window-height . 10)))
                      (goto-char (point-min)))))

(defun lrls--report-end (server process errors)
  "Show how the PROCESS of SERVER ended, by the text in the file ERRORS."
  (let ((status (process-exit-status process)) (text (lrls--text-of errors)))
    (when (= status lrls--faulty-grammar)
      (lrls--show-fault (lrls--grammar server) (lrls--message text)))
    (unless (= status 0)
      (lrls--show (format "The server %s %d:\n%s%s\n"
                          (if (eq (process-status process) 'signal) "was ended by signal" "ended with status") status text
                          (if (eglot--inhibit-autoreconnect server) "M-x lrls-restart starts it anew." "It is started anew."))))))

(defun lrls--text-of (file)
  "The text in FILE."
  (with-temp-buffer (insert-file-contents file) (buffer-string)))

(defun lrls--message (text)
  "The message in TEXT, which a server wrote on its standard error."
  (string-trim (string-remove-prefix "lrls: " text)))

(cl-defmethod eglot-handle-notification ((_ lrls-server) (_method (eql window/logMessage)) &key message &allow-other-keys)
  "Show MESSAGE, which says that a document is lost."
  (lrls--show (format "lrls: %s\n" message)))

(cl-defmethod eglot-handle-notification :after
  ((server lrls-server) (_method (eql textDocument/publishDiagnostics)) &key uri diagnostics version &allow-other-keys)
  "Refresh the buffer of URI, once SERVER has its text in this VERSION, with these DIAGNOSTICS."
  (let ((buffer (find-buffer-visiting (lrls--uri-to-path uri))))
    (when buffer
      (with-current-buffer buffer
        ;; Flymake's count is not drawn anew by itself where another window shows too.
        (force-mode-line-update)
        (when (and (eq (eglot-current-server) server) (eql version eglot--versioned-identifier))
          (lrls--refresh-soon server (lrls--fault diagnostics)))))))

(defun lrls--document ()
  "What names the current buffer in a request."
  (list :textDocument (list :uri (lrls--path-to-uri buffer-file-name))))

(defun lrls--fault (diagnostics)
  "The line of the first of DIAGNOSTICS, counted from 0, or nil."
  (when (> (length diagnostics) 0)
    (plist-get (plist-get (plist-get (aref diagnostics 0) :range) :start) :line)))

(defun lrls--later (server method act)
  "Ask SERVER about the current text by METHOD, and call ACT with the result, where the text is still the same."
  (let ((buffer (current-buffer)) (tick (buffer-chars-modified-tick)))
    (jsonrpc-async-request
     server method (lrls--document)
     ;; So long it may take on a busy machine to read all tokens of a megabyte.
     :timeout 60
     :success-fn (lambda (result)
                   (when (buffer-live-p buffer)
                     (with-current-buffer buffer
                       (when (= tick (buffer-chars-modified-tick)) (funcall act result)))))
     :error-fn #'ignore)))

(defun lrls--now (method params)
  "What the server returns on METHOD with PARAMS, or an error that the user reads."
  (let ((server (or (eglot-current-server) (user-error "No server runs for this buffer; M-x lrls-restart starts one"))))
    ;; Changes are sent half a second late otherwise.
    (eglot--signal-textDocument/didChange)
    (condition-case failure
        (jsonrpc-request server method params)
      (jsonrpc-error (user-error "lrls: %s" (or (alist-get 'jsonrpc-error-message (cddr failure)) (cadr failure)))))))

(defun lrls--refresh (server fault)
  "Have SERVER return folds and tokens of the current text, whose FAULT is in this line, or nil."
  (let ((begun (float-time)))
    (lrls--later server :textDocument/foldingRange (lambda (ranges) (lrls--take-folds ranges fault)))
    (lrls--later server :lr/tokens
                 (lambda (tokens)
                   ;; Where there are none they come as a vector.
                   (setq lrls--tokens (if (stringp tokens) tokens "") lrls--tick (buffer-chars-modified-tick))
                   (setq lrls--pause (min 3 (* 3 (- (float-time) begun))))
                   (lrls--paint-windows)))))

(defun lrls--refresh-soon (server fault)
  "Refresh the current buffer from SERVER, with its FAULT, once Emacs has rested for `lrls--pause' more seconds."
  (let ((buffer (current-buffer)) (tick (buffer-chars-modified-tick)))
    (if (< lrls--pause 0.1)
        (lrls--refresh server fault)
      (run-with-idle-timer
       (time-add (or (current-idle-time) 0) lrls--pause) nil
       (lambda ()
         (when (and (buffer-live-p buffer) (= tick (buffer-chars-modified-tick buffer)))
           (with-current-buffer buffer (lrls--refresh server fault))))))))

(defun lrls--connect (buffer)
  "Start a server for BUFFER, where it has none."
  (with-current-buffer buffer
    (when (and buffer-file-name (not (eglot-current-server)))
      (apply #'eglot--connect (eglot--guess-contact)))))

(defun lrls--restart (mode)
  "Start the servers of all buffers of MODE anew."
  (let* ((buffers (cl-remove-if-not (lambda (buffer) (eq (buffer-local-value 'major-mode buffer) mode)) (buffer-list)))
         (servers (mapcar (lambda (buffer) (with-current-buffer buffer (eglot-current-server))) buffers)))
    (mapc #'eglot-reconnect (delete-dups (delq nil servers)))
    (mapc #'lrls--connect buffers)))

(defun lrls-restart ()
  "Start the servers anew of this buffer's language, and of the languages whose grammar this buffer is."
  (interactive)
  (mapc #'lrls--restart (delete-dups (cons major-mode (lrls--modes-of buffer-file-name)))))

;; Grammars.

(defun lrls--modes-of (grammar)
  "The modes of the languages whose grammar is in the file GRAMMAR."
  (let ((languages (and grammar (cl-remove-if-not (lambda (language) (file-equal-p (cadr language) grammar)) lrls--languages))))
    (mapcar #'car languages)))

(defun lrls--productions (message)
  "The productions in the items of a conflict, which MESSAGE tells of."
  (let ((items (cl-remove-if-not (lambda (line) (string-prefix-p "item: " line)) (split-string message "\n"))))
    (mapcar (lambda (item) (string-replace " ." "" (replace-regexp-in-string "\\`item: \\([^,]*\\),.*\\'" "\\1" item))) items)))

(defun lrls--says (line production)
  "Whether LINE says PRODUCTION: it does so itself, or by a name with a mark, or as the start."
  (let ((words (split-string line)) (left (car (split-string production))))
    (cond ((equal left "(start)") (and (equal (car words) "start") (not (equal (cadr words) "="))))
          ((string-match-p "[*+?]\\'" left) (member left words))
          (t (equal words (split-string production))))))

(defun lrls--lines-that-say (productions)
  "The lines of this grammar file that say one of PRODUCTIONS."
  (let ((number 0) found)
    (dolist (line (split-string (buffer-string) "\n") (nreverse found))
      (setq number (1+ number))
      (when (cl-some (lambda (production) (lrls--says line production)) productions)
        (push number found)))))

(defun lrls--fault-lines (message)
  "The lines of this grammar file that MESSAGE is about: the one that it names, or those of a conflict's two items, or the first."
  (if (string-match "\\`line \\([0-9]+\\): " message)
      (list (max 1 (string-to-number (match-string 1 message))))
    (or (lrls--lines-that-say (lrls--productions message)) (list 1))))

(defun lrls--diagnostic (place)
  "What Flymake shows of the grammar's fault in the line of PLACE."
  (save-excursion
    (goto-char place)
    (flymake-make-diagnostic (current-buffer) (line-beginning-position) (min (point-max) (1+ (line-end-position)))
                             :error (concat "lrls: " (car lrls--grammar-fault)))))

(defun lrls--report-fault (report &rest _)
  "Give REPORT what Flymake shows of the grammar in this buffer."
  (funcall report (mapcar #'lrls--diagnostic (cdr lrls--grammar-fault))))

(defun lrls--add-report ()
  "Have Flymake show the fault of the grammar in this buffer, where it has one or had one."
  (when (local-variable-p 'lrls--grammar-fault)
    (add-hook 'flymake-diagnostic-functions #'lrls--report-fault nil t)))

;; eglot sets the list of these functions when it begins to manage a buffer.
(add-hook 'eglot-managed-mode-hook #'lrls--add-report)

(defun lrls--place-of (line)
  "A marker at the beginning of LINE, counted from 1."
  (save-excursion
    (goto-char (point-min))
    (forward-line (1- line))
    (point-marker)))

(defun lrls--show-fault (grammar message)
  "Show in the buffer of the file GRAMMAR what is wrong with it by MESSAGE, or where that is nil, that nothing is."
  (let ((buffer (find-buffer-visiting grammar)))
    (when buffer
      (with-current-buffer buffer
        (setq lrls--grammar-fault (and message (cons message (mapcar #'lrls--place-of (lrls--fault-lines message)))))
        (when (or message flymake-mode)
          (lrls--add-report)
          (unless flymake-mode (flymake-mode))
          (flymake-start))))))

(defun lrls--check (grammar done)
  "Have a server without input read the file GRAMMAR, and call DONE with what is wrong with it, or nil."
  (make-process
   :name "lrls check" :buffer (generate-new-buffer " *lrls check*") :connection-type 'pipe :noquery t
   :command (list "sh" "-c" "exec \"$0\" serve \"$1\" 2>&1 < /dev/null" lrls-program grammar)
   :sentinel (lambda (process _event)
               (unless (process-live-p process)
                 (let ((text (with-current-buffer (process-buffer process) (buffer-string)))
                       (is-faulty (= (process-exit-status process) lrls--faulty-grammar))
                       (has-failed (/= (process-exit-status process) 0)))
                   (kill-buffer (process-buffer process))
                   (lrls--show-fault grammar (and is-faulty (lrls--message text)))
                   (funcall done (and has-failed (not (equal text "")) (lrls--message text))))))))

(defun lrls--grammar-saved ()
  "Have the languages whose grammar was saved go by it.  Where it has a fault, their servers go on with the grammar before."
  (let ((modes (lrls--modes-of buffer-file-name)) (name (buffer-name)))
    (when modes
      (lrls--check buffer-file-name
                   (lambda (message)
                     (cond ((not message) (run-with-timer 0 nil #'mapc #'lrls--restart modes))
                           ((string-search "\n" message) (lrls--show (format "%s: %s\n" name message)))
                           (t (message "%s: %s" name message))))))))

(defun lrls--grammar-found ()
  "Show what is wrong with the grammar in this buffer, where it is one of a language."
  (when (lrls--modes-of buffer-file-name)
    (lrls--check buffer-file-name #'ignore)))

(add-hook 'after-save-hook #'lrls--grammar-saved)
(add-hook 'find-file-hook #'lrls--grammar-found)

;; Places.  Whoever looks for many goes through the text once, since each search for a line goes through all lines before it.

(defun lrls--line-ends (lines)
  "The ends of LINES, counted from 0, in a hash table."
  (let ((ends (make-hash-table)) (here 0))
    (save-excursion
      (goto-char (point-min))
      (dolist (line (sort (copy-sequence lines) #'<) ends)
        (forward-line (- line here))
        (setq here line)
        (puthash line (line-end-position) ends)))))

;; Folds.

(defun lrls--take-folds (ranges fault)
  "Keep the folds of RANGES.
While the text has a FAULT in this line the server knows only what is before it: the folds that reach this line, or begin after
it, stay as they were."
  (save-restriction
    (widen)
    (let* ((first-lines (mapcar (lambda (range) (plist-get range :startLine)) ranges))
           (last-lines (mapcar (lambda (range) (plist-get range :endLine)) ranges))
           (ends (lrls--line-ends (append (and fault (list fault)) first-lines last-lines)))
           (place (lambda (line) (copy-marker (gethash line ends))))
           (reaches-fault (lambda (fold) (and fault (>= (cdr fold) (gethash fault ends)))))
           (new (cl-mapcar (lambda (first last) (cons (funcall place first) (funcall place last))) first-lines last-lines))
           (old (cl-remove-if-not reaches-fault lrls--folds)))
      (setq lrls--folds (append (cl-set-difference old (cl-remove-if-not reaches-fault new) :test #'equal) new)))))

(defun lrls--line-end (place)
  "The end of the line of PLACE, which was an end of a line when it was marked."
  (save-excursion
    (goto-char place)
    (line-end-position)))

(defun lrls--fold-at-point ()
  "The innermost fold around the line of point."
  (let ((here (line-end-position)) found)
    (dolist (fold lrls--folds found)
      (when (and (<= (car fold) here) (<= here (lrls--line-end (cdr fold))) (or (not found) (> (car fold) (car found))))
        (setq found fold)))))

(defun lrls--open (overlay is-done &rest _)
  "Show the fold that OVERLAY hides once a change in it IS-DONE, so that nothing changes unseen."
  (when is-done (delete-overlay overlay)))

(defun lrls--hide (fold)
  "Hide the lines of FOLD but its first.  What is typed before the hidden text or after it is shown."
  (let ((overlay (make-overlay (lrls--line-end (car fold)) (lrls--line-end (cdr fold)) nil t)))
    (overlay-put overlay 'lrls-fold t)
    (overlay-put overlay 'evaporate t)
    (overlay-put overlay 'invisible 'lrls)
    (overlay-put overlay 'modification-hooks '(lrls--open))
    (overlay-put overlay 'isearch-open-invisible #'delete-overlay)))

(defun lrls-toggle-fold ()
  "Hide the innermost fold around point, or show it again."
  (interactive)
  (let ((hidden (cl-remove-if-not (lambda (overlay) (overlay-get overlay 'lrls-fold))
                                  (overlays-in (line-beginning-position) (1+ (line-end-position)))))
        (fold (lrls--fold-at-point)))
    (cond (hidden (mapc #'delete-overlay hidden))
          (fold (goto-char (min (point) (lrls--line-end (car fold))))
                (lrls--hide fold))
          (t (user-error "No fold is here")))))

(defun lrls-fold-all ()
  "Hide all folds."
  (interactive)
  (lrls-unfold-all)
  (mapc #'lrls--hide lrls--folds))

(defun lrls-unfold-all ()
  "Show all folds."
  (interactive)
  (remove-overlays nil nil 'lrls-fold t))

;; Colours.  Only the lines that a window shows are coloured.

(defun lrls--token-from (place)
  "The first token whose row begins at PLACE of the text of the tokens or after it, or nil.
It is a list of the place where its row begins, its name, and its two positions."
  (when (string-match "\\[\"\\([^\"]+\\)\",\\([0-9]+\\),\\([0-9]+\\),\\([0-9]+\\),\\([0-9]+\\)]" lrls--tokens place)
    (let ((number (lambda (group) (string-to-number (match-string group lrls--tokens)))))
      (cl-list* (match-beginning 0) (match-string 1 lrls--tokens) (mapcar number '(2 3 4 5))))))

(defun lrls--first-token (line)
  "The first token that ends in LINE or after it, or nil."
  (let ((low 0) (high (length lrls--tokens)))
    (while (< low high)
      (let* ((middle (/ (+ low high) 2))
             (token (lrls--token-from middle)))
        (if (and token (< (nth 4 token) line))
            (setq low (1+ (car token)))
          (setq high middle))))
    (lrls--token-from low)))

(defun lrls--extend (overlay is-done first last &optional _)
  "Have the OVERLAY of a token take in the letters that a text from FIRST up to LAST begins with, once its insertion IS-DONE.
The text stands after the token, and the server's answer comes later."
  (when is-done
    (save-excursion
      (goto-char first)
      (skip-chars-forward "[:alnum:]_" last)
      (move-overlay overlay (overlay-start overlay) (point)))))

(defun lrls--colour (first last face)
  "Have the token from FIRST up to LAST shown in FACE."
  (let ((overlay (make-overlay first last nil t)))
    (overlay-put overlay 'lrls-token t)
    (overlay-put overlay 'evaporate t)
    (overlay-put overlay 'insert-behind-hooks '(lrls--extend))
    (overlay-put overlay 'face face)))

(defun lrls--begins-by (token line)
  "Whether TOKEN begins before LINE, or in it before the last column that is coloured."
  (or (< (nth 2 token) line)
      (and (= (nth 2 token) line) (< (nth 3 token) lrls-coloured-columns))))

(defun lrls--paint-line (line)
  "Colour what the tokens of LINE, at whose beginning point is, have in it."
  (let ((token (lrls--first-token line)) (start (point)) (end (line-end-position)))
    (while (and token (lrls--begins-by token line))
      (cl-destructuring-bind (at name first-line first last-line last) token
        (let ((face (cdr (assoc name lrls-faces))))
          (when face
            (lrls--colour (if (= first-line line) (+ start first) start) (if (= last-line line) (+ start last) end) face)))
        (setq token (lrls--token-from (1+ at)))))))

(defun lrls--next-shown-line (last)
  "Go to the beginning of the next line that isn't in a closed fold, or beyond LAST."
  (forward-line 1)
  (while (and (< (point) last) (invisible-p (1- (point))))
    (goto-char (next-single-char-property-change (point) 'invisible nil last))
    (forward-line 1)))

(defun lrls--paint-window (window done)
  "Colour the lines that WINDOW shows, but for those in the hash table DONE, and add them to it."
  (let ((last (window-end window t)))
    (goto-char (window-start window))
    (forward-line 0)
    (while (< (point) last)
      (unless (gethash (point) done)
        (puthash (point) t done)
        (lrls--paint-line (1- (line-number-at-pos))))
      (lrls--next-shown-line last))))

(defun lrls--paint-windows (&rest _)
  "Colour what windows show of the current buffer, and nothing else."
  (let ((windows (get-buffer-window-list nil nil t)))
    (when (and windows (eql lrls--tick (buffer-chars-modified-tick)))
      (save-restriction
        (widen)
        (remove-overlays nil nil 'lrls-token t)
        (let ((done (make-hash-table)))
          (save-excursion (mapc (lambda (window) (lrls--paint-window window done)) windows)))))))

(defun lrls--scrolled (window _start)
  "Colour what WINDOW shows, once it is drawn."
  (let ((buffer (window-buffer window)))
    (run-with-idle-timer 0.02 nil (lambda () (when (buffer-live-p buffer) (with-current-buffer buffer (lrls--paint-windows)))))))

;; The selection.

(defun lrls--ranges ()
  "The ranges around point from inner to outer, as pairs of places."
  (let ((answer (lrls--now :textDocument/selectionRange
                           (append (lrls--document) (list :positions (vector (eglot--pos-to-lsp-position))))))
        ranges)
    (let ((link (aref answer 0)))
      (while link
        (push (lrls--range-region (plist-get link :range)) ranges)
        (setq link (plist-get link :parent))))
    (nreverse ranges)))

(defun lrls--select (first last)
  "Select the text from FIRST up to LAST, with point at FIRST."
  (goto-char first)
  (push-mark last t t)
  (setq deactivate-mark nil))

(defun lrls-grow ()
  "Select the innermost node around point, or around the selection a wider one."
  (interactive)
  (let* ((now (and (use-region-p) (cons (region-beginning) (region-end))))
         (wider (cl-find-if (lambda (range)
                              (and (< (car range) (cdr range))
                                   (or (not now)
                                       (and (<= (car range) (car now)) (>= (cdr range) (cdr now)) (not (equal range now))))))
                            (lrls--ranges))))
    (unless now (setq lrls--grown nil))
    (when wider
      (push (or now (point)) lrls--grown)
      (lrls--select (car wider) (cdr wider)))))

(defun lrls-shrink ()
  "Go back to what was selected before the last growth."
  (interactive)
  (let ((before (pop lrls--grown)))
    (cond ((consp before) (lrls--select (car before) (cdr before)))
          (t (when before (goto-char before))
             (deactivate-mark)))))

;; Languages.

(defvar lrls-mode-map
  (let ((map (make-sparse-keymap)))
    (define-key map (kbd "C-c C-e") #'lrls-grow)
    (define-key map (kbd "C-c C-s") #'lrls-shrink)
    (define-key map (kbd "C-c C-f") #'lrls-toggle-fold)
    (define-key map (kbd "C-c C-r") #'lrls-restart)
    map))

(define-derived-mode lrls-mode prog-mode "lrls"
  "What the modes of all languages that lrls serves have in common."
  ;; This eglot asks for symbols even where the server has none.
  (setq-local eglot-stay-out-of '(imenu))
  (add-to-invisibility-spec '(lrls . t))
  ;; eglot before 1.12 doesn't take the server's unit of places for these.
  (setq-local eglot-current-column-function #'eglot-current-column)
  (setq-local eglot-move-to-column-function #'eglot-move-to-column)
  (add-hook 'window-scroll-functions #'lrls--scrolled nil t))

(defun lrls-add-language (name files grammar &optional comment faces)
  "Serve the language NAME by GRAMMAR in files whose names match FILES.
The mode of the language is NAME with `-mode' after it.  COMMENT begins a comment up to the end of a line.  FACES are pairs of
the name of a rule of the grammar and a face."
  (let ((mode (intern (concat name "-mode")))
        (command (list "sh" "-c" "exec \"$0\" serve \"$1\" 2> \"$2\"" lrls-program grammar (make-temp-file "lrls-"))))
    (eval `(define-derived-mode ,mode lrls-mode ,(capitalize name)
             (setq-local comment-start ,comment)
             (setq-local comment-start-skip ,(and comment (concat (regexp-quote comment) "[ \t]*")))
             (setq-local comment-end "")
             (setq-local lrls-faces ',faces))
          t)
    (add-to-list 'lrls--languages (list mode grammar))
    (add-to-list 'auto-mode-alist (cons files mode))
    (add-to-list 'eglot-server-programs (cons mode (cons 'lrls-server command)))
    (add-hook (intern (concat name "-mode-hook")) #'eglot-ensure)))

(lrls-add-language "sums" "\\.sum\\'" (expand-file-name "grammars/g0.lr" lrls-top) nil
                   '(("NUM" . font-lock-constant-face) ("PLUS" . font-lock-keyword-face)))

(lrls-add-language "lr" "\\.lr\\'" (expand-file-name "grammars/lr.lr" lrls-top) "#"
                   '(("LRGRAMMAR_1" . font-lock-preprocessor-face) ("LRGRAMMAR_2" . font-lock-preprocessor-face)
                     ("TOKEN" . font-lock-keyword-face) ("SKIP" . font-lock-keyword-face)
                     ("START" . font-lock-keyword-face) ("FOLD" . font-lock-keyword-face)
                     ("COMMENT" . font-lock-comment-face) ("LITERAL" . font-lock-string-face)
                     ("CLASS" . font-lock-constant-face) ("NAME" . font-lock-variable-name-face)
                     ("MARKED" . font-lock-variable-name-face)))

;;; emacs.el ends here
