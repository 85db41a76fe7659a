(set-logic QF_BV)
(define-sort |top_s| () (_ BitVec 22))
(define-fun |top_is| ((state |top_s|)) Bool (= ((_ extract 0 0) state) #b1))
(define-fun |top#0| ((state |top_s|)) (_ BitVec 5) ((_ extract 5 1) state)) ; \begin_at
(define-fun |top_n begin_at| ((state |top_s|)) (_ BitVec 5) (|top#0| state))
(define-fun |top#1| ((state |top_s|)) (_ BitVec 8) ((_ extract 13 6) state)) ; \pop
(define-fun |top_n pop| ((state |top_s|)) (_ BitVec 8) (|top#1| state))
(define-fun |top#2| ((state |top_s|)) (_ BitVec 8) ((_ extract 21 14) state)) ; \push
(define-fun |top_n push| ((state |top_s|)) (_ BitVec 8) (|top#2| state))
(define-fun |top#3| ((state |top_s|)) Bool (bvult #b00000 (|top#0| state))) ; $0$formal$measure/fifo_level.v:10$4_CHECK[0:0]$28
(define-fun |top_u 0| ((state |top_s|)) Bool (or (|top#3| state) (not (= ((_ extract 0 0) (|top#1| state)) #b1)))) ; $assume$measure/fifo_level.v:10$106
(define-fun |top#4| ((state |top_s|)) (_ BitVec 5) (bvadd (|top#0| state) (concat #b0000 ((_ extract 0 0) (|top#2| state))))) ; $add$measure/fifo_level.v:11$69_Y
(define-fun |top#5| ((state |top_s|)) (_ BitVec 5) (bvsub (|top#4| state) (concat #b0000 ((_ extract 0 0) (|top#1| state))))) ; $sub$measure/fifo_level.v:11$70_Y
(define-fun |top#6| ((state |top_s|)) Bool (bvult #b00000 (|top#5| state))) ; $0$formal$measure/fifo_level.v:10$6_CHECK[0:0]$32
(define-fun |top_u 1| ((state |top_s|)) Bool (or (|top#6| state) (not (= ((_ extract 1 1) (|top#1| state)) #b1)))) ; $assume$measure/fifo_level.v:10$108
(define-fun |top#7| ((state |top_s|)) (_ BitVec 5) (bvadd (|top#5| state) (concat #b0000 ((_ extract 1 1) (|top#2| state))))) ; $add$measure/fifo_level.v:11$73_Y
(define-fun |top#8| ((state |top_s|)) (_ BitVec 5) (bvsub (|top#7| state) (concat #b0000 ((_ extract 1 1) (|top#1| state))))) ; $sub$measure/fifo_level.v:11$74_Y
(define-fun |top#9| ((state |top_s|)) Bool (bvult #b00000 (|top#8| state))) ; $0$formal$measure/fifo_level.v:10$8_CHECK[0:0]$36
(define-fun |top_u 2| ((state |top_s|)) Bool (or (|top#9| state) (not (= ((_ extract 2 2) (|top#1| state)) #b1)))) ; $assume$measure/fifo_level.v:10$110
(define-fun |top#10| ((state |top_s|)) (_ BitVec 5) (bvadd (|top#8| state) (concat #b0000 ((_ extract 2 2) (|top#2| state))))) ; $add$measure/fifo_level.v:11$77_Y
(define-fun |top#11| ((state |top_s|)) (_ BitVec 5) (bvsub (|top#10| state) (concat #b0000 ((_ extract 2 2) (|top#1| state))))) ; $sub$measure/fifo_level.v:11$78_Y
(define-fun |top#12| ((state |top_s|)) Bool (bvult #b00000 (|top#11| state))) ; $0$formal$measure/fifo_level.v:10$11_CHECK[0:0]$42
(define-fun |top_u 3| ((state |top_s|)) Bool (or (|top#12| state) (not (= ((_ extract 3 3) (|top#1| state)) #b1)))) ; $assume$measure/fifo_level.v:10$113
(define-fun |top#13| ((state |top_s|)) (_ BitVec 5) (bvadd (|top#11| state) (concat #b0000 ((_ extract 3 3) (|top#2| state))))) ; $add$measure/fifo_level.v:11$82_Y
(define-fun |top#14| ((state |top_s|)) (_ BitVec 5) (bvsub (|top#13| state) (concat #b0000 ((_ extract 3 3) (|top#1| state))))) ; $sub$measure/fifo_level.v:11$83_Y
(define-fun |top#15| ((state |top_s|)) Bool (bvult #b00000 (|top#14| state))) ; $0$formal$measure/fifo_level.v:10$13_CHECK[0:0]$46
(define-fun |top_u 4| ((state |top_s|)) Bool (or (|top#15| state) (not (= ((_ extract 4 4) (|top#1| state)) #b1)))) ; $assume$measure/fifo_level.v:10$115
(define-fun |top#16| ((state |top_s|)) (_ BitVec 5) (bvadd (|top#14| state) (concat #b0000 ((_ extract 4 4) (|top#2| state))))) ; $add$measure/fifo_level.v:11$86_Y
(define-fun |top#17| ((state |top_s|)) (_ BitVec 5) (bvsub (|top#16| state) (concat #b0000 ((_ extract 4 4) (|top#1| state))))) ; $sub$measure/fifo_level.v:11$87_Y
(define-fun |top#18| ((state |top_s|)) Bool (bvult #b00000 (|top#17| state))) ; $0$formal$measure/fifo_level.v:10$15_CHECK[0:0]$50
(define-fun |top_u 5| ((state |top_s|)) Bool (or (|top#18| state) (not (= ((_ extract 5 5) (|top#1| state)) #b1)))) ; $assume$measure/fifo_level.v:10$117
(define-fun |top#19| ((state |top_s|)) (_ BitVec 5) (bvadd (|top#17| state) (concat #b0000 ((_ extract 5 5) (|top#2| state))))) ; $add$measure/fifo_level.v:11$90_Y
(define-fun |top#20| ((state |top_s|)) (_ BitVec 5) (bvsub (|top#19| state) (concat #b0000 ((_ extract 5 5) (|top#1| state))))) ; $sub$measure/fifo_level.v:11$91_Y
(define-fun |top#21| ((state |top_s|)) Bool (bvult #b00000 (|top#20| state))) ; $0$formal$measure/fifo_level.v:10$18_CHECK[0:0]$56
(define-fun |top_u 6| ((state |top_s|)) Bool (or (|top#21| state) (not (= ((_ extract 6 6) (|top#1| state)) #b1)))) ; $assume$measure/fifo_level.v:10$120
(define-fun |top#22| ((state |top_s|)) (_ BitVec 5) (bvadd (|top#20| state) (concat #b0000 ((_ extract 6 6) (|top#2| state))))) ; $add$measure/fifo_level.v:11$95_Y
(define-fun |top#23| ((state |top_s|)) (_ BitVec 5) (bvsub (|top#22| state) (concat #b0000 ((_ extract 6 6) (|top#1| state))))) ; $sub$measure/fifo_level.v:11$96_Y
(define-fun |top#24| ((state |top_s|)) Bool (bvult #b00000 (|top#23| state))) ; $0$formal$measure/fifo_level.v:10$20_CHECK[0:0]$60
(define-fun |top_u 7| ((state |top_s|)) Bool (or (|top#24| state) (not (= ((_ extract 7 7) (|top#1| state)) #b1)))) ; $assume$measure/fifo_level.v:10$122
(define-fun |top#25| ((state |top_s|)) Bool (= (|top#11| state) #b10000)) ; $0$formal$measure/fifo_level.v:12$9_CHECK[0:0]$38
(define-fun |top_u 8| ((state |top_s|)) Bool (or (|top#25| state) (not true))) ; $assume$measure/fifo_level.v:12$111
(define-fun |top#26| ((state |top_s|)) Bool (= (|top#20| state) #b01101)) ; $0$formal$measure/fifo_level.v:13$16_CHECK[0:0]$52
(define-fun |top_u 9| ((state |top_s|)) Bool (or (|top#26| state) (not true))) ; $assume$measure/fifo_level.v:13$118
(define-fun |top#27| ((state |top_s|)) (_ BitVec 5) (bvadd (|top#23| state) (concat #b0000 ((_ extract 7 7) (|top#2| state))))) ; $add$measure/fifo_level.v:11$99_Y
(define-fun |top#28| ((state |top_s|)) (_ BitVec 5) (bvsub (|top#27| state) (concat #b0000 ((_ extract 7 7) (|top#1| state))))) ; \level
(define-fun |top#29| ((state |top_s|)) Bool (= (|top#28| state) #b01110)) ; $0$formal$measure/fifo_level.v:14$21_CHECK[0:0]$62
(define-fun |top_u 10| ((state |top_s|)) Bool (or (|top#29| state) (not true))) ; $assume$measure/fifo_level.v:14$123
(define-fun |top#30| ((state |top_s|)) (_ BitVec 8) (bvand (|top#2| state) (|top#1| state))) ; $and$measure/fifo_level.v:16$102_Y
(define-fun |top#31| ((state |top_s|)) Bool (= (|top#30| state) #b10000010)) ; $0$formal$measure/fifo_level.v:15$22_CHECK[0:0]$64
(define-fun |top_u 11| ((state |top_s|)) Bool (or (|top#31| state) (not true))) ; $assume$measure/fifo_level.v:15$124
(define-fun |top#32| ((state |top_s|)) Bool (bvult #b10000 (|top#0| state))) ; $le$measure/fifo_level.v:7$66.less
(define-fun |top#33| ((state |top_s|)) (_ BitVec 1) (bvnot (ite (|top#32| state) #b1 #b0))) ; $0$formal$measure/fifo_level.v:6$2_CHECK[0:0]$24
(define-fun |top_u 12| ((state |top_s|)) Bool (or (= ((_ extract 0 0) (|top#33| state)) #b1) (not true))) ; $assume$measure/fifo_level.v:6$104
(define-fun |top#34| ((state |top_s|)) (_ BitVec 1) (bvnot ((_ extract 4 4) (|top#0| state)))) ; $0$formal$measure/fifo_level.v:9$3_CHECK[0:0]$26
(define-fun |top_u 13| ((state |top_s|)) Bool (or (= ((_ extract 0 0) (|top#34| state)) #b1) (not (= ((_ extract 0 0) (|top#2| state)) #b1)))) ; $assume$measure/fifo_level.v:9$105
(define-fun |top#35| ((state |top_s|)) (_ BitVec 1) (bvnot ((_ extract 4 4) (|top#5| state)))) ; $0$formal$measure/fifo_level.v:9$5_CHECK[0:0]$30
(define-fun |top_u 14| ((state |top_s|)) Bool (or (= ((_ extract 0 0) (|top#35| state)) #b1) (not (= ((_ extract 1 1) (|top#2| state)) #b1)))) ; $assume$measure/fifo_level.v:9$107
(define-fun |top#36| ((state |top_s|)) (_ BitVec 1) (bvnot ((_ extract 4 4) (|top#8| state)))) ; $0$formal$measure/fifo_level.v:9$7_CHECK[0:0]$34
(define-fun |top_u 15| ((state |top_s|)) Bool (or (= ((_ extract 0 0) (|top#36| state)) #b1) (not (= ((_ extract 2 2) (|top#2| state)) #b1)))) ; $assume$measure/fifo_level.v:9$109
(define-fun |top#37| ((state |top_s|)) (_ BitVec 1) (bvnot ((_ extract 4 4) (|top#11| state)))) ; $0$formal$measure/fifo_level.v:9$10_CHECK[0:0]$40
(define-fun |top_u 16| ((state |top_s|)) Bool (or (= ((_ extract 0 0) (|top#37| state)) #b1) (not (= ((_ extract 3 3) (|top#2| state)) #b1)))) ; $assume$measure/fifo_level.v:9$112
(define-fun |top#38| ((state |top_s|)) (_ BitVec 1) (bvnot ((_ extract 4 4) (|top#14| state)))) ; $0$formal$measure/fifo_level.v:9$12_CHECK[0:0]$44
(define-fun |top_u 17| ((state |top_s|)) Bool (or (= ((_ extract 0 0) (|top#38| state)) #b1) (not (= ((_ extract 4 4) (|top#2| state)) #b1)))) ; $assume$measure/fifo_level.v:9$114
(define-fun |top#39| ((state |top_s|)) (_ BitVec 1) (bvnot ((_ extract 4 4) (|top#17| state)))) ; $0$formal$measure/fifo_level.v:9$14_CHECK[0:0]$48
(define-fun |top_u 18| ((state |top_s|)) Bool (or (= ((_ extract 0 0) (|top#39| state)) #b1) (not (= ((_ extract 5 5) (|top#2| state)) #b1)))) ; $assume$measure/fifo_level.v:9$116
(define-fun |top#40| ((state |top_s|)) (_ BitVec 1) (bvnot ((_ extract 4 4) (|top#20| state)))) ; $0$formal$measure/fifo_level.v:9$17_CHECK[0:0]$54
(define-fun |top_u 19| ((state |top_s|)) Bool (or (= ((_ extract 0 0) (|top#40| state)) #b1) (not (= ((_ extract 6 6) (|top#2| state)) #b1)))) ; $assume$measure/fifo_level.v:9$119
(define-fun |top#41| ((state |top_s|)) (_ BitVec 1) (bvnot ((_ extract 4 4) (|top#23| state)))) ; $0$formal$measure/fifo_level.v:9$19_CHECK[0:0]$58
(define-fun |top_u 20| ((state |top_s|)) Bool (or (= ((_ extract 0 0) (|top#41| state)) #b1) (not (= ((_ extract 7 7) (|top#2| state)) #b1)))) ; $assume$measure/fifo_level.v:9$121
(define-fun |top_a| ((state |top_s|)) Bool true)
(define-fun |top_u| ((state |top_s|)) Bool (and
  (|top_u 0| state)
  (|top_u 1| state)
  (|top_u 2| state)
  (|top_u 3| state)
  (|top_u 4| state)
  (|top_u 5| state)
  (|top_u 6| state)
  (|top_u 7| state)
  (|top_u 8| state)
  (|top_u 9| state)
  (|top_u 10| state)
  (|top_u 11| state)
  (|top_u 12| state)
  (|top_u 13| state)
  (|top_u 14| state)
  (|top_u 15| state)
  (|top_u 16| state)
  (|top_u 17| state)
  (|top_u 18| state)
  (|top_u 19| state)
  (|top_u 20| state)
))
(define-fun |top_i| ((state |top_s|)) Bool true)
(define-fun |top_h| ((state |top_s|)) Bool true)
(define-fun |top_t| ((state |top_s|) (next_state |top_s|)) Bool true) ; end of module top
(declare-fun s () |top_s|)
(assert (|top_u| s))
(check-sat)
