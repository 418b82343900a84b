(define-fungible-token coin u1000)
(define-public (send (n uint) (to principal)) (ft-transfer? coin n tx-sender to))
(define-read-only (mine) (ft-get-balance coin tx-sender))
(ft-mint? coin u1000 tx-sender)
