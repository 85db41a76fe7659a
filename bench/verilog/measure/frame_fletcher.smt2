(set-logic QF_BV)
(define-sort |top_s| () (_ BitVec 65))
(define-fun |top_is| ((state |top_s|)) Bool (= ((_ extract 0 0) state) #b1))
(define-fun |top#0| ((state |top_s|)) (_ BitVec 64) ((_ extract 64 1) state)) ; \data
(define-fun |top_n data| ((state |top_s|)) (_ BitVec 64) (|top#0| state))
(define-fun |top#1| ((state |top_s|)) Bool (distinct ((_ extract 31 29) (|top#0| state)) #b000)) ; $ge$measure/frame_fletcher.v:13$57_Y
(define-fun |top#2| ((state |top_s|)) Bool (bvult ((_ extract 31 24) (|top#0| state)) #b01111111)) ; $logic_and$measure/frame_fletcher.v:13$59.b
(define-fun |top#3| ((state |top_s|)) (_ BitVec 1) (bvand (ite (|top#1| state) #b1 #b0) (ite (|top#2| state) #b1 #b0))) ; $0$formal$measure/frame_fletcher.v:13$3_CHECK[0:0]$14
(define-fun |top_u 0| ((state |top_s|)) Bool (or (= ((_ extract 0 0) (|top#3| state)) #b1) (not true))) ; $assume$measure/frame_fletcher.v:13$100
(define-fun |top#4| ((state |top_s|)) Bool (distinct ((_ extract 39 37) (|top#0| state)) #b000)) ; $ge$measure/frame_fletcher.v:13$66_Y
(define-fun |top#5| ((state |top_s|)) Bool (bvult ((_ extract 39 32) (|top#0| state)) #b01111111)) ; $logic_and$measure/frame_fletcher.v:13$68.b
(define-fun |top#6| ((state |top_s|)) (_ BitVec 1) (bvand (ite (|top#4| state) #b1 #b0) (ite (|top#5| state) #b1 #b0))) ; $0$formal$measure/frame_fletcher.v:13$4_CHECK[0:0]$16
(define-fun |top_u 1| ((state |top_s|)) Bool (or (= ((_ extract 0 0) (|top#6| state)) #b1) (not true))) ; $assume$measure/frame_fletcher.v:13$101
(define-fun |top#7| ((state |top_s|)) Bool (distinct ((_ extract 47 45) (|top#0| state)) #b000)) ; $ge$measure/frame_fletcher.v:13$75_Y
(define-fun |top#8| ((state |top_s|)) Bool (bvult ((_ extract 47 40) (|top#0| state)) #b01111111)) ; $logic_and$measure/frame_fletcher.v:13$77.b
(define-fun |top#9| ((state |top_s|)) (_ BitVec 1) (bvand (ite (|top#7| state) #b1 #b0) (ite (|top#8| state) #b1 #b0))) ; $0$formal$measure/frame_fletcher.v:13$5_CHECK[0:0]$18
(define-fun |top_u 2| ((state |top_s|)) Bool (or (= ((_ extract 0 0) (|top#9| state)) #b1) (not true))) ; $assume$measure/frame_fletcher.v:13$102
(define-fun |top#10| ((state |top_s|)) Bool (distinct ((_ extract 55 53) (|top#0| state)) #b000)) ; $ge$measure/frame_fletcher.v:13$84_Y
(define-fun |top#11| ((state |top_s|)) Bool (bvult ((_ extract 55 48) (|top#0| state)) #b01111111)) ; $logic_and$measure/frame_fletcher.v:13$86.b
(define-fun |top#12| ((state |top_s|)) (_ BitVec 1) (bvand (ite (|top#10| state) #b1 #b0) (ite (|top#11| state) #b1 #b0))) ; $0$formal$measure/frame_fletcher.v:13$6_CHECK[0:0]$20
(define-fun |top_u 3| ((state |top_s|)) Bool (or (= ((_ extract 0 0) (|top#12| state)) #b1) (not true))) ; $assume$measure/frame_fletcher.v:13$103
(define-fun |top#13| ((state |top_s|)) Bool (distinct ((_ extract 63 61) (|top#0| state)) #b000)) ; $ge$measure/frame_fletcher.v:13$93_Y
(define-fun |top#14| ((state |top_s|)) Bool (bvult ((_ extract 63 56) (|top#0| state)) #b01111111)) ; $logic_and$measure/frame_fletcher.v:13$95.b
(define-fun |top#15| ((state |top_s|)) (_ BitVec 1) (bvand (ite (|top#13| state) #b1 #b0) (ite (|top#14| state) #b1 #b0))) ; $0$formal$measure/frame_fletcher.v:13$7_CHECK[0:0]$22
(define-fun |top_u 4| ((state |top_s|)) Bool (or (= ((_ extract 0 0) (|top#15| state)) #b1) (not true))) ; $assume$measure/frame_fletcher.v:13$104
(define-fun |top#16| ((state |top_s|)) Bool (distinct ((_ extract 23 21) (|top#0| state)) #b000)) ; $ge$measure/frame_fletcher.v:13$48_Y
(define-fun |top#17| ((state |top_s|)) Bool (bvult ((_ extract 23 16) (|top#0| state)) #b01111111)) ; $logic_and$measure/frame_fletcher.v:13$50.b
(define-fun |top#18| ((state |top_s|)) (_ BitVec 1) (bvand (ite (|top#16| state) #b1 #b0) (ite (|top#17| state) #b1 #b0))) ; $0$formal$measure/frame_fletcher.v:13$2_CHECK[0:0]$12
(define-fun |top_u 5| ((state |top_s|)) Bool (or (= ((_ extract 0 0) (|top#18| state)) #b1) (not true))) ; $assume$measure/frame_fletcher.v:13$99
(define-fun |top#19| ((state |top_s|)) Bool (= ((_ extract 15 0) (|top#0| state)) #b0000101001011111)) ; $0$formal$measure/frame_fletcher.v:14$8_CHECK[0:0]$24
(define-fun |top_u 6| ((state |top_s|)) Bool (or (|top#19| state) (not true))) ; $assume$measure/frame_fletcher.v:14$105
(define-fun |top#20| ((state |top_s|)) (_ BitVec 16) (bvsub (concat #b00000000 ((_ extract 7 0) (|top#0| state))) #b0000000011111111)) ; $sub$measure/frame_fletcher.v:10$32_Y
(define-fun |top#21| ((state |top_s|)) Bool (bvult (concat #b00000000 ((_ extract 7 0) (|top#0| state))) #b0000000011111111)) ; $ge$measure/frame_fletcher.v:10$31.less
(define-fun |top#22| ((state |top_s|)) (_ BitVec 16) (ite (|top#21| state) (concat #b00000000 ((_ extract 7 0) (|top#0| state))) (|top#20| state))) ; $1\a[15:0]
(define-fun |top#23| ((state |top_s|)) (_ BitVec 16) (bvadd (|top#22| state) (concat #b00000000 ((_ extract 15 8) (|top#0| state))))) ; $add$measure/frame_fletcher.v:9$36_Y
(define-fun |top#24| ((state |top_s|)) (_ BitVec 16) (bvsub (|top#23| state) #b0000000011111111)) ; $sub$measure/frame_fletcher.v:10$38_Y
(define-fun |top#25| ((state |top_s|)) Bool (bvult (|top#23| state) #b0000000011111111)) ; $ge$measure/frame_fletcher.v:10$37.less
(define-fun |top#26| ((state |top_s|)) (_ BitVec 16) (ite (|top#25| state) (|top#23| state) (|top#24| state))) ; $2\a[15:0]
(define-fun |top#27| ((state |top_s|)) (_ BitVec 16) (bvadd (|top#26| state) (concat #b00000000 ((_ extract 23 16) (|top#0| state))))) ; $add$measure/frame_fletcher.v:9$42_Y
(define-fun |top#28| ((state |top_s|)) (_ BitVec 16) (bvsub (|top#27| state) #b0000000011111111)) ; $sub$measure/frame_fletcher.v:10$44_Y
(define-fun |top#29| ((state |top_s|)) Bool (bvult (|top#27| state) #b0000000011111111)) ; $ge$measure/frame_fletcher.v:10$43.less
(define-fun |top#30| ((state |top_s|)) (_ BitVec 16) (ite (|top#29| state) (|top#27| state) (|top#28| state))) ; $3\a[15:0]
(define-fun |top#31| ((state |top_s|)) (_ BitVec 16) (bvadd (|top#30| state) (concat #b00000000 ((_ extract 31 24) (|top#0| state))))) ; $add$measure/frame_fletcher.v:9$51_Y
(define-fun |top#32| ((state |top_s|)) (_ BitVec 16) (bvsub (|top#31| state) #b0000000011111111)) ; $sub$measure/frame_fletcher.v:10$53_Y
(define-fun |top#33| ((state |top_s|)) Bool (bvult (|top#31| state) #b0000000011111111)) ; $ge$measure/frame_fletcher.v:10$52.less
(define-fun |top#34| ((state |top_s|)) (_ BitVec 16) (ite (|top#33| state) (|top#31| state) (|top#32| state))) ; $4\a[15:0]
(define-fun |top#35| ((state |top_s|)) (_ BitVec 16) (bvadd (|top#34| state) (concat #b00000000 ((_ extract 39 32) (|top#0| state))))) ; $add$measure/frame_fletcher.v:9$60_Y
(define-fun |top#36| ((state |top_s|)) (_ BitVec 16) (bvsub (|top#35| state) #b0000000011111111)) ; $sub$measure/frame_fletcher.v:10$62_Y
(define-fun |top#37| ((state |top_s|)) Bool (bvult (|top#35| state) #b0000000011111111)) ; $ge$measure/frame_fletcher.v:10$61.less
(define-fun |top#38| ((state |top_s|)) (_ BitVec 16) (ite (|top#37| state) (|top#35| state) (|top#36| state))) ; $5\a[15:0]
(define-fun |top#39| ((state |top_s|)) (_ BitVec 16) (bvadd (|top#38| state) (concat #b00000000 ((_ extract 47 40) (|top#0| state))))) ; $add$measure/frame_fletcher.v:9$69_Y
(define-fun |top#40| ((state |top_s|)) (_ BitVec 16) (bvsub (|top#39| state) #b0000000011111111)) ; $sub$measure/frame_fletcher.v:10$71_Y
(define-fun |top#41| ((state |top_s|)) Bool (bvult (|top#39| state) #b0000000011111111)) ; $ge$measure/frame_fletcher.v:10$70.less
(define-fun |top#42| ((state |top_s|)) (_ BitVec 16) (ite (|top#41| state) (|top#39| state) (|top#40| state))) ; $6\a[15:0]
(define-fun |top#43| ((state |top_s|)) (_ BitVec 16) (bvadd (|top#42| state) (concat #b00000000 ((_ extract 55 48) (|top#0| state))))) ; $add$measure/frame_fletcher.v:9$78_Y
(define-fun |top#44| ((state |top_s|)) (_ BitVec 16) (bvsub (|top#43| state) #b0000000011111111)) ; $sub$measure/frame_fletcher.v:10$80_Y
(define-fun |top#45| ((state |top_s|)) Bool (bvult (|top#43| state) #b0000000011111111)) ; $ge$measure/frame_fletcher.v:10$79.less
(define-fun |top#46| ((state |top_s|)) (_ BitVec 16) (ite (|top#45| state) (|top#43| state) (|top#44| state))) ; $7\a[15:0]
(define-fun |top#47| ((state |top_s|)) (_ BitVec 16) (bvadd (|top#46| state) (concat #b00000000 ((_ extract 63 56) (|top#0| state))))) ; $add$measure/frame_fletcher.v:9$87_Y
(define-fun |top#48| ((state |top_s|)) (_ BitVec 16) (bvsub (|top#47| state) #b0000000011111111)) ; $sub$measure/frame_fletcher.v:10$89_Y
(define-fun |top#49| ((state |top_s|)) Bool (bvult (|top#47| state) #b0000000011111111)) ; $ge$measure/frame_fletcher.v:10$88.less
(define-fun |top#50| ((state |top_s|)) (_ BitVec 16) (ite (|top#49| state) (|top#47| state) (|top#48| state))) ; \a
(define-fun |top#51| ((state |top_s|)) Bool (= (|top#50| state) #b0000000000111100)) ; $0$formal$measure/frame_fletcher.v:15$9_CHECK[0:0]$26
(define-fun |top_u 7| ((state |top_s|)) Bool (or (|top#51| state) (not true))) ; $assume$measure/frame_fletcher.v:15$106
(define-fun |top#52| ((state |top_s|)) (_ BitVec 16) (bvsub (|top#22| state) #b0000000011111111)) ; $sub$measure/frame_fletcher.v:12$35_Y
(define-fun |top#53| ((state |top_s|)) Bool (bvult (|top#22| state) #b0000000011111111)) ; $ge$measure/frame_fletcher.v:12$34.less
(define-fun |top#54| ((state |top_s|)) (_ BitVec 16) (ite (|top#53| state) (|top#22| state) (|top#52| state))) ; $1\b[15:0]
(define-fun |top#55| ((state |top_s|)) (_ BitVec 16) (bvadd (|top#54| state) (|top#26| state))) ; $add$measure/frame_fletcher.v:11$39_Y
(define-fun |top#56| ((state |top_s|)) (_ BitVec 16) (bvsub (|top#55| state) #b0000000011111111)) ; $sub$measure/frame_fletcher.v:12$41_Y
(define-fun |top#57| ((state |top_s|)) Bool (bvult (|top#55| state) #b0000000011111111)) ; $ge$measure/frame_fletcher.v:12$40.less
(define-fun |top#58| ((state |top_s|)) (_ BitVec 16) (ite (|top#57| state) (|top#55| state) (|top#56| state))) ; $2\b[15:0]
(define-fun |top#59| ((state |top_s|)) (_ BitVec 16) (bvadd (|top#58| state) (|top#30| state))) ; $add$measure/frame_fletcher.v:11$45_Y
(define-fun |top#60| ((state |top_s|)) (_ BitVec 16) (bvsub (|top#59| state) #b0000000011111111)) ; $sub$measure/frame_fletcher.v:12$47_Y
(define-fun |top#61| ((state |top_s|)) Bool (bvult (|top#59| state) #b0000000011111111)) ; $ge$measure/frame_fletcher.v:12$46.less
(define-fun |top#62| ((state |top_s|)) (_ BitVec 16) (ite (|top#61| state) (|top#59| state) (|top#60| state))) ; $3\b[15:0]
(define-fun |top#63| ((state |top_s|)) (_ BitVec 16) (bvadd (|top#62| state) (|top#34| state))) ; $add$measure/frame_fletcher.v:11$54_Y
(define-fun |top#64| ((state |top_s|)) (_ BitVec 16) (bvsub (|top#63| state) #b0000000011111111)) ; $sub$measure/frame_fletcher.v:12$56_Y
(define-fun |top#65| ((state |top_s|)) Bool (bvult (|top#63| state) #b0000000011111111)) ; $ge$measure/frame_fletcher.v:12$55.less
(define-fun |top#66| ((state |top_s|)) (_ BitVec 16) (ite (|top#65| state) (|top#63| state) (|top#64| state))) ; $4\b[15:0]
(define-fun |top#67| ((state |top_s|)) (_ BitVec 16) (bvadd (|top#66| state) (|top#38| state))) ; $add$measure/frame_fletcher.v:11$63_Y
(define-fun |top#68| ((state |top_s|)) (_ BitVec 16) (bvsub (|top#67| state) #b0000000011111111)) ; $sub$measure/frame_fletcher.v:12$65_Y
(define-fun |top#69| ((state |top_s|)) Bool (bvult (|top#67| state) #b0000000011111111)) ; $ge$measure/frame_fletcher.v:12$64.less
(define-fun |top#70| ((state |top_s|)) (_ BitVec 16) (ite (|top#69| state) (|top#67| state) (|top#68| state))) ; $5\b[15:0]
(define-fun |top#71| ((state |top_s|)) (_ BitVec 16) (bvadd (|top#70| state) (|top#42| state))) ; $add$measure/frame_fletcher.v:11$72_Y
(define-fun |top#72| ((state |top_s|)) (_ BitVec 16) (bvsub (|top#71| state) #b0000000011111111)) ; $sub$measure/frame_fletcher.v:12$74_Y
(define-fun |top#73| ((state |top_s|)) Bool (bvult (|top#71| state) #b0000000011111111)) ; $ge$measure/frame_fletcher.v:12$73.less
(define-fun |top#74| ((state |top_s|)) (_ BitVec 16) (ite (|top#73| state) (|top#71| state) (|top#72| state))) ; $6\b[15:0]
(define-fun |top#75| ((state |top_s|)) (_ BitVec 16) (bvadd (|top#74| state) (|top#46| state))) ; $add$measure/frame_fletcher.v:11$81_Y
(define-fun |top#76| ((state |top_s|)) (_ BitVec 16) (bvsub (|top#75| state) #b0000000011111111)) ; $sub$measure/frame_fletcher.v:12$83_Y
(define-fun |top#77| ((state |top_s|)) Bool (bvult (|top#75| state) #b0000000011111111)) ; $ge$measure/frame_fletcher.v:12$82.less
(define-fun |top#78| ((state |top_s|)) (_ BitVec 16) (ite (|top#77| state) (|top#75| state) (|top#76| state))) ; $7\b[15:0]
(define-fun |top#79| ((state |top_s|)) (_ BitVec 16) (bvadd (|top#78| state) (|top#50| state))) ; $add$measure/frame_fletcher.v:11$90_Y
(define-fun |top#80| ((state |top_s|)) (_ BitVec 16) (bvsub (|top#79| state) #b0000000011111111)) ; $sub$measure/frame_fletcher.v:12$92_Y
(define-fun |top#81| ((state |top_s|)) Bool (bvult (|top#79| state) #b0000000011111111)) ; $ge$measure/frame_fletcher.v:12$91.less
(define-fun |top#82| ((state |top_s|)) (_ BitVec 16) (ite (|top#81| state) (|top#79| state) (|top#80| state))) ; \b
(define-fun |top#83| ((state |top_s|)) Bool (= (|top#82| state) #b0000000010110001)) ; $0$formal$measure/frame_fletcher.v:16$10_CHECK[0:0]$28
(define-fun |top_u 8| ((state |top_s|)) Bool (or (|top#83| state) (not true))) ; $assume$measure/frame_fletcher.v:16$107
(define-fun |top_a| ((state |top_s|)) Bool true)
(define-fun |top_u| ((state |top_s|)) Bool (and
  (|top_u 0| state)
  (|top_u 1| state)
  (|top_u 2| state)
  (|top_u 3| state)
  (|top_u 4| state)
  (|top_u 5| state)
  (|top_u 6| state)
  (|top_u 7| state)
  (|top_u 8| state)
))
(define-fun |top_i| ((state |top_s|)) Bool true)
(define-fun |top_h| ((state |top_s|)) Bool true)
(define-fun |top_t| ((state |top_s|) (next_state |top_s|)) Bool true) ; end of module top
(declare-fun s () |top_s|)
(assert (|top_u| s))
(check-sat)
