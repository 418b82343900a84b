(define-public (buy (n uint))
  (begin
    (try! (contract-call? .vault put n))
    (contract-call? .vault take (* n u2))))
(define-read-only (paid (who principal)) (contract-call? .vault amount who .bank))
