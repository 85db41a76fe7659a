(set-logic QF_BV)
(define-sort |top_s| () (_ BitVec 40))
(define-fun |top_is| ((state |top_s|)) Bool (= ((_ extract 0 0) state) #b1))
(define-fun |top#0| ((state |top_s|)) (_ BitVec 32) ((_ extract 32 1) state)) ; \data
(define-fun |top_n data| ((state |top_s|)) (_ BitVec 32) (|top#0| state))
(define-fun |top#1| ((state |top_s|)) (_ BitVec 7) ((_ extract 39 33) state)) ; \state
(define-fun |top_n state| ((state |top_s|)) (_ BitVec 7) (|top#1| state))
(define-fun |top#2| ((state |top_s|)) (_ BitVec 1) (bvxor ((_ extract 0 0) (|top#0| state)) ((_ extract 6 6) (|top#1| state)))) ; $xor$choose/scrambler.v:9$12_Y
(define-fun |top#3| ((state |top_s|)) (_ BitVec 1) (bvxor (|top#2| state) ((_ extract 3 3) (|top#1| state)))) ; \out [0]
(define-fun |top#4| ((state |top_s|)) (_ BitVec 1) (bvxor ((_ extract 1 1) (|top#0| state)) ((_ extract 5 5) (|top#1| state)))) ; $xor$choose/scrambler.v:9$14_Y
(define-fun |top#5| ((state |top_s|)) (_ BitVec 1) (bvxor (|top#4| state) ((_ extract 2 2) (|top#1| state)))) ; \out [1]
(define-fun |top#6| ((state |top_s|)) (_ BitVec 1) (bvxor ((_ extract 2 2) (|top#0| state)) ((_ extract 4 4) (|top#1| state)))) ; $xor$choose/scrambler.v:9$16_Y
(define-fun |top#7| ((state |top_s|)) (_ BitVec 1) (bvxor (|top#6| state) ((_ extract 1 1) (|top#1| state)))) ; \out [2]
(define-fun |top#8| ((state |top_s|)) (_ BitVec 1) (bvxor ((_ extract 3 3) (|top#0| state)) ((_ extract 3 3) (|top#1| state)))) ; $xor$choose/scrambler.v:9$18_Y
(define-fun |top#9| ((state |top_s|)) (_ BitVec 1) (bvxor (|top#8| state) ((_ extract 0 0) (|top#1| state)))) ; \out [3]
(define-fun |top#10| ((state |top_s|)) (_ BitVec 1) (bvxor ((_ extract 4 4) (|top#0| state)) ((_ extract 2 2) (|top#1| state)))) ; $xor$choose/scrambler.v:9$20_Y
(define-fun |top#11| ((state |top_s|)) (_ BitVec 1) (bvxor (|top#10| state) (|top#3| state))) ; \out [4]
(define-fun |top#12| ((state |top_s|)) (_ BitVec 1) (bvxor ((_ extract 5 5) (|top#0| state)) ((_ extract 1 1) (|top#1| state)))) ; $xor$choose/scrambler.v:9$22_Y
(define-fun |top#13| ((state |top_s|)) (_ BitVec 1) (bvxor (|top#12| state) (|top#5| state))) ; \out [5]
(define-fun |top#14| ((state |top_s|)) (_ BitVec 1) (bvxor ((_ extract 6 6) (|top#0| state)) ((_ extract 0 0) (|top#1| state)))) ; $xor$choose/scrambler.v:9$24_Y
(define-fun |top#15| ((state |top_s|)) (_ BitVec 1) (bvxor (|top#14| state) (|top#7| state))) ; \out [6]
(define-fun |top#16| ((state |top_s|)) (_ BitVec 1) (bvxor ((_ extract 7 7) (|top#0| state)) (|top#3| state))) ; $xor$choose/scrambler.v:9$26_Y
(define-fun |top#17| ((state |top_s|)) (_ BitVec 1) (bvxor (|top#16| state) (|top#9| state))) ; \out [7]
(define-fun |top#18| ((state |top_s|)) (_ BitVec 1) (bvxor ((_ extract 8 8) (|top#0| state)) (|top#5| state))) ; $xor$choose/scrambler.v:9$28_Y
(define-fun |top#19| ((state |top_s|)) (_ BitVec 1) (bvxor (|top#18| state) (|top#11| state))) ; \out [8]
(define-fun |top#20| ((state |top_s|)) (_ BitVec 1) (bvxor ((_ extract 9 9) (|top#0| state)) (|top#7| state))) ; $xor$choose/scrambler.v:9$30_Y
(define-fun |top#21| ((state |top_s|)) (_ BitVec 1) (bvxor (|top#20| state) (|top#13| state))) ; \out [9]
(define-fun |top#22| ((state |top_s|)) (_ BitVec 1) (bvxor ((_ extract 10 10) (|top#0| state)) (|top#9| state))) ; $xor$choose/scrambler.v:9$32_Y
(define-fun |top#23| ((state |top_s|)) (_ BitVec 1) (bvxor (|top#22| state) (|top#15| state))) ; \out [10]
(define-fun |top#24| ((state |top_s|)) (_ BitVec 1) (bvxor ((_ extract 11 11) (|top#0| state)) (|top#11| state))) ; $xor$choose/scrambler.v:9$34_Y
(define-fun |top#25| ((state |top_s|)) (_ BitVec 1) (bvxor (|top#24| state) (|top#17| state))) ; \out [11]
(define-fun |top#26| ((state |top_s|)) (_ BitVec 1) (bvxor ((_ extract 12 12) (|top#0| state)) (|top#13| state))) ; $xor$choose/scrambler.v:9$36_Y
(define-fun |top#27| ((state |top_s|)) (_ BitVec 1) (bvxor (|top#26| state) (|top#19| state))) ; \out [12]
(define-fun |top#28| ((state |top_s|)) (_ BitVec 1) (bvxor ((_ extract 13 13) (|top#0| state)) (|top#15| state))) ; $xor$choose/scrambler.v:9$38_Y
(define-fun |top#29| ((state |top_s|)) (_ BitVec 1) (bvxor (|top#28| state) (|top#21| state))) ; \out [13]
(define-fun |top#30| ((state |top_s|)) (_ BitVec 1) (bvxor ((_ extract 14 14) (|top#0| state)) (|top#17| state))) ; $xor$choose/scrambler.v:9$40_Y
(define-fun |top#31| ((state |top_s|)) (_ BitVec 1) (bvxor (|top#30| state) (|top#23| state))) ; \out [14]
(define-fun |top#32| ((state |top_s|)) (_ BitVec 1) (bvxor ((_ extract 15 15) (|top#0| state)) (|top#19| state))) ; $xor$choose/scrambler.v:9$42_Y
(define-fun |top#33| ((state |top_s|)) (_ BitVec 1) (bvxor (|top#32| state) (|top#25| state))) ; \out [15]
(define-fun |top#34| ((state |top_s|)) (_ BitVec 1) (bvxor ((_ extract 16 16) (|top#0| state)) (|top#21| state))) ; $xor$choose/scrambler.v:9$44_Y
(define-fun |top#35| ((state |top_s|)) (_ BitVec 1) (bvxor (|top#34| state) (|top#27| state))) ; \out [16]
(define-fun |top#36| ((state |top_s|)) (_ BitVec 1) (bvxor ((_ extract 17 17) (|top#0| state)) (|top#23| state))) ; $xor$choose/scrambler.v:9$46_Y
(define-fun |top#37| ((state |top_s|)) (_ BitVec 1) (bvxor (|top#36| state) (|top#29| state))) ; \out [17]
(define-fun |top#38| ((state |top_s|)) (_ BitVec 1) (bvxor ((_ extract 18 18) (|top#0| state)) (|top#25| state))) ; $xor$choose/scrambler.v:9$48_Y
(define-fun |top#39| ((state |top_s|)) (_ BitVec 1) (bvxor (|top#38| state) (|top#31| state))) ; \out [18]
(define-fun |top#40| ((state |top_s|)) (_ BitVec 1) (bvxor ((_ extract 19 19) (|top#0| state)) (|top#27| state))) ; $xor$choose/scrambler.v:9$50_Y
(define-fun |top#41| ((state |top_s|)) (_ BitVec 1) (bvxor (|top#40| state) (|top#33| state))) ; \out [19]
(define-fun |top#42| ((state |top_s|)) (_ BitVec 1) (bvxor ((_ extract 20 20) (|top#0| state)) (|top#29| state))) ; $xor$choose/scrambler.v:9$52_Y
(define-fun |top#43| ((state |top_s|)) (_ BitVec 1) (bvxor (|top#42| state) (|top#35| state))) ; \out [20]
(define-fun |top#44| ((state |top_s|)) (_ BitVec 1) (bvxor ((_ extract 21 21) (|top#0| state)) (|top#31| state))) ; $xor$choose/scrambler.v:9$54_Y
(define-fun |top#45| ((state |top_s|)) (_ BitVec 1) (bvxor (|top#44| state) (|top#37| state))) ; \out [21]
(define-fun |top#46| ((state |top_s|)) (_ BitVec 1) (bvxor ((_ extract 22 22) (|top#0| state)) (|top#33| state))) ; $xor$choose/scrambler.v:9$56_Y
(define-fun |top#47| ((state |top_s|)) (_ BitVec 1) (bvxor (|top#46| state) (|top#39| state))) ; \out [22]
(define-fun |top#48| ((state |top_s|)) (_ BitVec 1) (bvxor ((_ extract 23 23) (|top#0| state)) (|top#35| state))) ; $xor$choose/scrambler.v:9$58_Y
(define-fun |top#49| ((state |top_s|)) (_ BitVec 1) (bvxor (|top#48| state) (|top#41| state))) ; \out [23]
(define-fun |top#50| ((state |top_s|)) (_ BitVec 1) (bvxor ((_ extract 24 24) (|top#0| state)) (|top#37| state))) ; $xor$choose/scrambler.v:9$60_Y
(define-fun |top#51| ((state |top_s|)) (_ BitVec 1) (bvxor (|top#50| state) (|top#43| state))) ; \out [24]
(define-fun |top#52| ((state |top_s|)) (_ BitVec 1) (bvxor ((_ extract 25 25) (|top#0| state)) (|top#39| state))) ; $xor$choose/scrambler.v:9$62_Y
(define-fun |top#53| ((state |top_s|)) (_ BitVec 1) (bvxor (|top#52| state) (|top#45| state))) ; \out [25]
(define-fun |top#54| ((state |top_s|)) (_ BitVec 1) (bvxor ((_ extract 26 26) (|top#0| state)) (|top#41| state))) ; $xor$choose/scrambler.v:9$64_Y
(define-fun |top#55| ((state |top_s|)) (_ BitVec 1) (bvxor (|top#54| state) (|top#47| state))) ; \out [26]
(define-fun |top#56| ((state |top_s|)) (_ BitVec 1) (bvxor ((_ extract 27 27) (|top#0| state)) (|top#43| state))) ; $xor$choose/scrambler.v:9$66_Y
(define-fun |top#57| ((state |top_s|)) (_ BitVec 1) (bvxor (|top#56| state) (|top#49| state))) ; \out [27]
(define-fun |top#58| ((state |top_s|)) (_ BitVec 1) (bvxor ((_ extract 28 28) (|top#0| state)) (|top#45| state))) ; $xor$choose/scrambler.v:9$68_Y
(define-fun |top#59| ((state |top_s|)) (_ BitVec 1) (bvxor (|top#58| state) (|top#51| state))) ; \out [28]
(define-fun |top#60| ((state |top_s|)) (_ BitVec 1) (bvxor ((_ extract 29 29) (|top#0| state)) (|top#47| state))) ; $xor$choose/scrambler.v:9$70_Y
(define-fun |top#61| ((state |top_s|)) (_ BitVec 1) (bvxor (|top#60| state) (|top#53| state))) ; \out [29]
(define-fun |top#62| ((state |top_s|)) (_ BitVec 1) (bvxor ((_ extract 30 30) (|top#0| state)) (|top#49| state))) ; $xor$choose/scrambler.v:9$72_Y
(define-fun |top#63| ((state |top_s|)) (_ BitVec 1) (bvxor (|top#62| state) (|top#55| state))) ; \out [30]
(define-fun |top#64| ((state |top_s|)) (_ BitVec 1) (bvxor ((_ extract 31 31) (|top#0| state)) (|top#51| state))) ; $xor$choose/scrambler.v:9$74_Y
(define-fun |top#65| ((state |top_s|)) (_ BitVec 1) (bvxor (|top#64| state) (|top#57| state))) ; \out [31]
(define-fun |top#66| ((state |top_s|)) Bool (= (concat (|top#65| state) (concat (|top#63| state) (concat (|top#61| state) (concat (|top#59| state) (concat (|top#57| state) (concat (|top#55| state) (concat (|top#53| state) (concat (|top#51| state) (concat (|top#49| state) (concat (|top#47| state) (concat (|top#45| state) (concat (|top#43| state) (concat (|top#41| state) (concat (|top#39| state) (concat (|top#37| state) (concat (|top#35| state) (concat (|top#33| state) (concat (|top#31| state) (concat (|top#29| state) (concat (|top#27| state) (concat (|top#25| state) (concat (|top#23| state) (concat (|top#21| state) (concat (|top#19| state) (concat (|top#17| state) (concat (|top#15| state) (concat (|top#13| state) (concat (|top#11| state) (concat (|top#9| state) (concat (|top#7| state) (concat (|top#5| state) (|top#3| state)))))))))))))))))))))))))))))))) #b01000111101000011100010100111110)) ; $0$formal$choose/scrambler.v:11$2_CHECK[0:0]$6
(define-fun |top_u 0| ((state |top_s|)) Bool (or (|top#66| state) (not true))) ; $assume$choose/scrambler.v:11$79
(define-fun |top#67| ((state |top_s|)) Bool (distinct (|top#1| state) #b0000000)) ; $0$formal$choose/scrambler.v:12$3_CHECK[0:0]$8
(define-fun |top_u 1| ((state |top_s|)) Bool (or (|top#67| state) (not true))) ; $assume$choose/scrambler.v:12$80
(define-fun |top#68| ((state |top_s|)) Bool (= ((_ extract 7 0) (|top#0| state)) #b10111000)) ; $0$formal$choose/scrambler.v:13$4_CHECK[0:0]$10
(define-fun |top_u 2| ((state |top_s|)) Bool (or (|top#68| state) (not true))) ; $assume$choose/scrambler.v:13$81
(define-fun |top_a| ((state |top_s|)) Bool true)
(define-fun |top_u| ((state |top_s|)) Bool (and
  (|top_u 0| state)
  (|top_u 1| state)
  (|top_u 2| state)
))
(define-fun |top_i| ((state |top_s|)) Bool true)
(define-fun |top_h| ((state |top_s|)) Bool true)
(define-fun |top_t| ((state |top_s|) (next_state |top_s|)) Bool true) ; end of module top
(declare-fun s () |top_s|)
(assert (|top_u| s))
(check-sat)
