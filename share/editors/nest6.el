;; Emacs: `M-x compile' with a command such as `nest6 run a.c' knows the line of a fault, or of what is refused; `M-g n' goes there.
;;   (load "share/editors/nest6.el")        in ~/.emacs.d/init.el, with the whole path

(require 'compile)

(defun nest6-file ()
  "The file that the command of this buffer names, in a list: the messages of nest6 do not name it."
  (save-excursion
    (save-match-data
      (goto-char (point-min))
      (when (re-search-forward "nest6 .*?\\([^ \n]+\\.c\\)\\(?: \\|$\\)" nil t)
        (list (match-string-no-properties 1))))))

;; What the program prints may stand before a message in its line.
(add-to-list 'compilation-error-regexp-alist-alist
             '(nest6 "\\(?:fault\\|refused\\): [A-Za-z]+ at line \\([0-9]+\\)$" nest6-file 1))
(add-to-list 'compilation-error-regexp-alist 'nest6)
