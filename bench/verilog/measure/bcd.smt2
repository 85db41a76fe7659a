(set-logic QF_BV)
(define-sort |top_s| () (_ BitVec 17))
(define-fun |top_is| ((state |top_s|)) Bool (= ((_ extract 0 0) state) #b1))
(define-fun |top#0| ((state |top_s|)) (_ BitVec 16) ((_ extract 16 1) state)) ; \n
(define-fun |top_n n| ((state |top_s|)) (_ BitVec 16) (|top#0| state))
(define-fun |top#1| ((state |top_s|)) (_ BitVec 4) (bvadd (concat #b000 ((_ extract 15 15) (|top#0| state))) #b0011)) ; $add$measure/bcd.v:9$24_Y
(define-fun |top#2| ((state |top_s|)) Bool (bvult (concat #b000 ((_ extract 15 15) (|top#0| state))) #b0101)) ; $ge$measure/bcd.v:9$23.less
(define-fun |top#3| ((state |top_s|)) (_ BitVec 4) (ite (|top#2| state) (concat #b000 ((_ extract 15 15) (|top#0| state))) (|top#1| state))) ; $6\d[3:0]
(define-fun |top#4| ((state |top_s|)) (_ BitVec 4) (bvadd (concat ((_ extract 2 0) (|top#3| state)) ((_ extract 14 14) (|top#0| state))) #b0011)) ; $add$measure/bcd.v:9$34_Y
(define-fun |top#5| ((state |top_s|)) Bool (bvult (concat ((_ extract 2 0) (|top#3| state)) ((_ extract 14 14) (|top#0| state))) #b0101)) ; $ge$measure/bcd.v:9$33.less
(define-fun |top#6| ((state |top_s|)) (_ BitVec 4) (ite (|top#5| state) (concat ((_ extract 2 0) (|top#3| state)) ((_ extract 14 14) (|top#0| state))) (|top#4| state))) ; $11\d[3:0]
(define-fun |top#7| ((state |top_s|)) (_ BitVec 4) (bvadd (concat ((_ extract 2 0) (|top#6| state)) ((_ extract 13 13) (|top#0| state))) #b0011)) ; $add$measure/bcd.v:9$44_Y
(define-fun |top#8| ((state |top_s|)) Bool (bvult (concat ((_ extract 2 0) (|top#6| state)) ((_ extract 13 13) (|top#0| state))) #b0101)) ; $ge$measure/bcd.v:9$43.less
(define-fun |top#9| ((state |top_s|)) (_ BitVec 4) (ite (|top#8| state) (concat ((_ extract 2 0) (|top#6| state)) ((_ extract 13 13) (|top#0| state))) (|top#7| state))) ; $16\d[3:0]
(define-fun |top#10| ((state |top_s|)) (_ BitVec 4) (bvadd (concat ((_ extract 2 0) (|top#9| state)) ((_ extract 12 12) (|top#0| state))) #b0011)) ; $add$measure/bcd.v:9$54_Y
(define-fun |top#11| ((state |top_s|)) Bool (bvult (concat ((_ extract 2 0) (|top#9| state)) ((_ extract 12 12) (|top#0| state))) #b0101)) ; $ge$measure/bcd.v:9$53.less
(define-fun |top#12| ((state |top_s|)) (_ BitVec 4) (ite (|top#11| state) (concat ((_ extract 2 0) (|top#9| state)) ((_ extract 12 12) (|top#0| state))) (|top#10| state))) ; $21\d[3:0]
(define-fun |top#13| ((state |top_s|)) (_ BitVec 4) (bvadd (concat ((_ extract 2 0) (|top#12| state)) ((_ extract 11 11) (|top#0| state))) #b0011)) ; $add$measure/bcd.v:9$64_Y
(define-fun |top#14| ((state |top_s|)) Bool (bvult (concat ((_ extract 2 0) (|top#12| state)) ((_ extract 11 11) (|top#0| state))) #b0101)) ; $ge$measure/bcd.v:9$63.less
(define-fun |top#15| ((state |top_s|)) (_ BitVec 4) (ite (|top#14| state) (concat ((_ extract 2 0) (|top#12| state)) ((_ extract 11 11) (|top#0| state))) (|top#13| state))) ; $26\d[3:0]
(define-fun |top#16| ((state |top_s|)) (_ BitVec 4) (bvadd (concat ((_ extract 2 0) (|top#15| state)) ((_ extract 10 10) (|top#0| state))) #b0011)) ; $add$measure/bcd.v:9$74_Y
(define-fun |top#17| ((state |top_s|)) Bool (bvult (concat ((_ extract 2 0) (|top#15| state)) ((_ extract 10 10) (|top#0| state))) #b0101)) ; $ge$measure/bcd.v:9$73.less
(define-fun |top#18| ((state |top_s|)) (_ BitVec 4) (ite (|top#17| state) (concat ((_ extract 2 0) (|top#15| state)) ((_ extract 10 10) (|top#0| state))) (|top#16| state))) ; $31\d[3:0]
(define-fun |top#19| ((state |top_s|)) (_ BitVec 4) (bvadd (concat ((_ extract 2 0) (|top#18| state)) ((_ extract 9 9) (|top#0| state))) #b0011)) ; $add$measure/bcd.v:9$84_Y
(define-fun |top#20| ((state |top_s|)) Bool (bvult (concat ((_ extract 2 0) (|top#18| state)) ((_ extract 9 9) (|top#0| state))) #b0101)) ; $ge$measure/bcd.v:9$83.less
(define-fun |top#21| ((state |top_s|)) (_ BitVec 4) (ite (|top#20| state) (concat ((_ extract 2 0) (|top#18| state)) ((_ extract 9 9) (|top#0| state))) (|top#19| state))) ; $36\d[3:0]
(define-fun |top#22| ((state |top_s|)) (_ BitVec 4) (bvadd (concat ((_ extract 2 0) (|top#21| state)) ((_ extract 8 8) (|top#0| state))) #b0011)) ; $add$measure/bcd.v:9$94_Y
(define-fun |top#23| ((state |top_s|)) Bool (bvult (concat ((_ extract 2 0) (|top#21| state)) ((_ extract 8 8) (|top#0| state))) #b0101)) ; $ge$measure/bcd.v:9$93.less
(define-fun |top#24| ((state |top_s|)) (_ BitVec 4) (ite (|top#23| state) (concat ((_ extract 2 0) (|top#21| state)) ((_ extract 8 8) (|top#0| state))) (|top#22| state))) ; $41\d[3:0]
(define-fun |top#25| ((state |top_s|)) (_ BitVec 4) (bvadd (concat ((_ extract 2 0) (|top#24| state)) ((_ extract 7 7) (|top#0| state))) #b0011)) ; $add$measure/bcd.v:9$104_Y
(define-fun |top#26| ((state |top_s|)) Bool (bvult (concat ((_ extract 2 0) (|top#24| state)) ((_ extract 7 7) (|top#0| state))) #b0101)) ; $ge$measure/bcd.v:9$103.less
(define-fun |top#27| ((state |top_s|)) (_ BitVec 4) (ite (|top#26| state) (concat ((_ extract 2 0) (|top#24| state)) ((_ extract 7 7) (|top#0| state))) (|top#25| state))) ; $46\d[3:0]
(define-fun |top#28| ((state |top_s|)) (_ BitVec 4) (bvadd (concat ((_ extract 2 0) (|top#27| state)) ((_ extract 6 6) (|top#0| state))) #b0011)) ; $add$measure/bcd.v:9$114_Y
(define-fun |top#29| ((state |top_s|)) Bool (bvult (concat ((_ extract 2 0) (|top#27| state)) ((_ extract 6 6) (|top#0| state))) #b0101)) ; $ge$measure/bcd.v:9$113.less
(define-fun |top#30| ((state |top_s|)) (_ BitVec 4) (ite (|top#29| state) (concat ((_ extract 2 0) (|top#27| state)) ((_ extract 6 6) (|top#0| state))) (|top#28| state))) ; $51\d[3:0]
(define-fun |top#31| ((state |top_s|)) (_ BitVec 4) (bvadd (concat ((_ extract 2 0) (|top#30| state)) ((_ extract 5 5) (|top#0| state))) #b0011)) ; $add$measure/bcd.v:9$124_Y
(define-fun |top#32| ((state |top_s|)) Bool (bvult (concat ((_ extract 2 0) (|top#30| state)) ((_ extract 5 5) (|top#0| state))) #b0101)) ; $ge$measure/bcd.v:9$123.less
(define-fun |top#33| ((state |top_s|)) (_ BitVec 4) (ite (|top#32| state) (concat ((_ extract 2 0) (|top#30| state)) ((_ extract 5 5) (|top#0| state))) (|top#31| state))) ; $56\d[3:0]
(define-fun |top#34| ((state |top_s|)) (_ BitVec 4) (bvadd (concat ((_ extract 2 0) (|top#33| state)) ((_ extract 4 4) (|top#0| state))) #b0011)) ; $add$measure/bcd.v:9$134_Y
(define-fun |top#35| ((state |top_s|)) Bool (bvult (concat ((_ extract 2 0) (|top#33| state)) ((_ extract 4 4) (|top#0| state))) #b0101)) ; $ge$measure/bcd.v:9$133.less
(define-fun |top#36| ((state |top_s|)) (_ BitVec 4) (ite (|top#35| state) (concat ((_ extract 2 0) (|top#33| state)) ((_ extract 4 4) (|top#0| state))) (|top#34| state))) ; $61\d[3:0]
(define-fun |top#37| ((state |top_s|)) (_ BitVec 4) (bvadd (concat #b000 ((_ extract 3 3) (|top#3| state))) #b0011)) ; $add$measure/bcd.v:9$36_Y
(define-fun |top#38| ((state |top_s|)) Bool (bvult (concat #b000 ((_ extract 3 3) (|top#3| state))) #b0101)) ; $ge$measure/bcd.v:9$35.less
(define-fun |top#39| ((state |top_s|)) (_ BitVec 4) (ite (|top#38| state) (concat #b000 ((_ extract 3 3) (|top#3| state))) (|top#37| state))) ; $12\d[7:4]
(define-fun |top#40| ((state |top_s|)) (_ BitVec 4) (bvadd (concat ((_ extract 2 0) (|top#39| state)) ((_ extract 3 3) (|top#6| state))) #b0011)) ; $add$measure/bcd.v:9$46_Y
(define-fun |top#41| ((state |top_s|)) Bool (bvult (concat ((_ extract 2 0) (|top#39| state)) ((_ extract 3 3) (|top#6| state))) #b0101)) ; $ge$measure/bcd.v:9$45.less
(define-fun |top#42| ((state |top_s|)) (_ BitVec 4) (ite (|top#41| state) (concat ((_ extract 2 0) (|top#39| state)) ((_ extract 3 3) (|top#6| state))) (|top#40| state))) ; $17\d[7:4]
(define-fun |top#43| ((state |top_s|)) (_ BitVec 4) (bvadd (concat ((_ extract 2 0) (|top#42| state)) ((_ extract 3 3) (|top#9| state))) #b0011)) ; $add$measure/bcd.v:9$56_Y
(define-fun |top#44| ((state |top_s|)) Bool (bvult (concat ((_ extract 2 0) (|top#42| state)) ((_ extract 3 3) (|top#9| state))) #b0101)) ; $ge$measure/bcd.v:9$55.less
(define-fun |top#45| ((state |top_s|)) (_ BitVec 4) (ite (|top#44| state) (concat ((_ extract 2 0) (|top#42| state)) ((_ extract 3 3) (|top#9| state))) (|top#43| state))) ; $22\d[7:4]
(define-fun |top#46| ((state |top_s|)) (_ BitVec 4) (bvadd (concat ((_ extract 2 0) (|top#45| state)) ((_ extract 3 3) (|top#12| state))) #b0011)) ; $add$measure/bcd.v:9$66_Y
(define-fun |top#47| ((state |top_s|)) Bool (bvult (concat ((_ extract 2 0) (|top#45| state)) ((_ extract 3 3) (|top#12| state))) #b0101)) ; $ge$measure/bcd.v:9$65.less
(define-fun |top#48| ((state |top_s|)) (_ BitVec 4) (ite (|top#47| state) (concat ((_ extract 2 0) (|top#45| state)) ((_ extract 3 3) (|top#12| state))) (|top#46| state))) ; $27\d[7:4]
(define-fun |top#49| ((state |top_s|)) (_ BitVec 4) (bvadd (concat ((_ extract 2 0) (|top#48| state)) ((_ extract 3 3) (|top#15| state))) #b0011)) ; $add$measure/bcd.v:9$76_Y
(define-fun |top#50| ((state |top_s|)) Bool (bvult (concat ((_ extract 2 0) (|top#48| state)) ((_ extract 3 3) (|top#15| state))) #b0101)) ; $ge$measure/bcd.v:9$75.less
(define-fun |top#51| ((state |top_s|)) (_ BitVec 4) (ite (|top#50| state) (concat ((_ extract 2 0) (|top#48| state)) ((_ extract 3 3) (|top#15| state))) (|top#49| state))) ; $32\d[7:4]
(define-fun |top#52| ((state |top_s|)) (_ BitVec 4) (bvadd (concat ((_ extract 2 0) (|top#51| state)) ((_ extract 3 3) (|top#18| state))) #b0011)) ; $add$measure/bcd.v:9$86_Y
(define-fun |top#53| ((state |top_s|)) Bool (bvult (concat ((_ extract 2 0) (|top#51| state)) ((_ extract 3 3) (|top#18| state))) #b0101)) ; $ge$measure/bcd.v:9$85.less
(define-fun |top#54| ((state |top_s|)) (_ BitVec 4) (ite (|top#53| state) (concat ((_ extract 2 0) (|top#51| state)) ((_ extract 3 3) (|top#18| state))) (|top#52| state))) ; $37\d[7:4]
(define-fun |top#55| ((state |top_s|)) (_ BitVec 4) (bvadd (concat ((_ extract 2 0) (|top#54| state)) ((_ extract 3 3) (|top#21| state))) #b0011)) ; $add$measure/bcd.v:9$96_Y
(define-fun |top#56| ((state |top_s|)) Bool (bvult (concat ((_ extract 2 0) (|top#54| state)) ((_ extract 3 3) (|top#21| state))) #b0101)) ; $ge$measure/bcd.v:9$95.less
(define-fun |top#57| ((state |top_s|)) (_ BitVec 4) (ite (|top#56| state) (concat ((_ extract 2 0) (|top#54| state)) ((_ extract 3 3) (|top#21| state))) (|top#55| state))) ; $42\d[7:4]
(define-fun |top#58| ((state |top_s|)) (_ BitVec 4) (bvadd (concat ((_ extract 2 0) (|top#57| state)) ((_ extract 3 3) (|top#24| state))) #b0011)) ; $add$measure/bcd.v:9$106_Y
(define-fun |top#59| ((state |top_s|)) Bool (bvult (concat ((_ extract 2 0) (|top#57| state)) ((_ extract 3 3) (|top#24| state))) #b0101)) ; $ge$measure/bcd.v:9$105.less
(define-fun |top#60| ((state |top_s|)) (_ BitVec 4) (ite (|top#59| state) (concat ((_ extract 2 0) (|top#57| state)) ((_ extract 3 3) (|top#24| state))) (|top#58| state))) ; $47\d[7:4]
(define-fun |top#61| ((state |top_s|)) (_ BitVec 4) (bvadd (concat ((_ extract 2 0) (|top#60| state)) ((_ extract 3 3) (|top#27| state))) #b0011)) ; $add$measure/bcd.v:9$116_Y
(define-fun |top#62| ((state |top_s|)) Bool (bvult (concat ((_ extract 2 0) (|top#60| state)) ((_ extract 3 3) (|top#27| state))) #b0101)) ; $ge$measure/bcd.v:9$115.less
(define-fun |top#63| ((state |top_s|)) (_ BitVec 4) (ite (|top#62| state) (concat ((_ extract 2 0) (|top#60| state)) ((_ extract 3 3) (|top#27| state))) (|top#61| state))) ; $52\d[7:4]
(define-fun |top#64| ((state |top_s|)) (_ BitVec 4) (bvadd (concat ((_ extract 2 0) (|top#63| state)) ((_ extract 3 3) (|top#30| state))) #b0011)) ; $add$measure/bcd.v:9$126_Y
(define-fun |top#65| ((state |top_s|)) Bool (bvult (concat ((_ extract 2 0) (|top#63| state)) ((_ extract 3 3) (|top#30| state))) #b0101)) ; $ge$measure/bcd.v:9$125.less
(define-fun |top#66| ((state |top_s|)) (_ BitVec 4) (ite (|top#65| state) (concat ((_ extract 2 0) (|top#63| state)) ((_ extract 3 3) (|top#30| state))) (|top#64| state))) ; $57\d[7:4]
(define-fun |top#67| ((state |top_s|)) (_ BitVec 4) (bvadd (concat ((_ extract 2 0) (|top#66| state)) ((_ extract 3 3) (|top#33| state))) #b0011)) ; $add$measure/bcd.v:9$136_Y
(define-fun |top#68| ((state |top_s|)) Bool (bvult (concat ((_ extract 2 0) (|top#66| state)) ((_ extract 3 3) (|top#33| state))) #b0101)) ; $ge$measure/bcd.v:9$135.less
(define-fun |top#69| ((state |top_s|)) (_ BitVec 4) (ite (|top#68| state) (concat ((_ extract 2 0) (|top#66| state)) ((_ extract 3 3) (|top#33| state))) (|top#67| state))) ; $62\d[7:4]
(define-fun |top#70| ((state |top_s|)) (_ BitVec 4) (bvadd (concat ((_ extract 2 0) (|top#69| state)) ((_ extract 3 3) (|top#36| state))) #b0011)) ; $add$measure/bcd.v:9$146_Y
(define-fun |top#71| ((state |top_s|)) Bool (bvult (concat ((_ extract 2 0) (|top#69| state)) ((_ extract 3 3) (|top#36| state))) #b0101)) ; $ge$measure/bcd.v:9$145.less
(define-fun |top#72| ((state |top_s|)) (_ BitVec 4) (ite (|top#71| state) (concat ((_ extract 2 0) (|top#69| state)) ((_ extract 3 3) (|top#36| state))) (|top#70| state))) ; $67\d[7:4]
(define-fun |top#73| ((state |top_s|)) (_ BitVec 4) (bvadd (concat #b000 ((_ extract 3 3) (|top#39| state))) #b0011)) ; $add$measure/bcd.v:9$48_Y
(define-fun |top#74| ((state |top_s|)) Bool (bvult (concat #b000 ((_ extract 3 3) (|top#39| state))) #b0101)) ; $ge$measure/bcd.v:9$47.less
(define-fun |top#75| ((state |top_s|)) (_ BitVec 4) (ite (|top#74| state) (concat #b000 ((_ extract 3 3) (|top#39| state))) (|top#73| state))) ; $18\d[11:8]
(define-fun |top#76| ((state |top_s|)) (_ BitVec 4) (bvadd (concat ((_ extract 2 0) (|top#75| state)) ((_ extract 3 3) (|top#42| state))) #b0011)) ; $add$measure/bcd.v:9$58_Y
(define-fun |top#77| ((state |top_s|)) Bool (bvult (concat ((_ extract 2 0) (|top#75| state)) ((_ extract 3 3) (|top#42| state))) #b0101)) ; $ge$measure/bcd.v:9$57.less
(define-fun |top#78| ((state |top_s|)) (_ BitVec 4) (ite (|top#77| state) (concat ((_ extract 2 0) (|top#75| state)) ((_ extract 3 3) (|top#42| state))) (|top#76| state))) ; $23\d[11:8]
(define-fun |top#79| ((state |top_s|)) (_ BitVec 4) (bvadd (concat ((_ extract 2 0) (|top#78| state)) ((_ extract 3 3) (|top#45| state))) #b0011)) ; $add$measure/bcd.v:9$68_Y
(define-fun |top#80| ((state |top_s|)) Bool (bvult (concat ((_ extract 2 0) (|top#78| state)) ((_ extract 3 3) (|top#45| state))) #b0101)) ; $ge$measure/bcd.v:9$67.less
(define-fun |top#81| ((state |top_s|)) (_ BitVec 4) (ite (|top#80| state) (concat ((_ extract 2 0) (|top#78| state)) ((_ extract 3 3) (|top#45| state))) (|top#79| state))) ; $28\d[11:8]
(define-fun |top#82| ((state |top_s|)) (_ BitVec 4) (bvadd (concat ((_ extract 2 0) (|top#81| state)) ((_ extract 3 3) (|top#48| state))) #b0011)) ; $add$measure/bcd.v:9$78_Y
(define-fun |top#83| ((state |top_s|)) Bool (bvult (concat ((_ extract 2 0) (|top#81| state)) ((_ extract 3 3) (|top#48| state))) #b0101)) ; $ge$measure/bcd.v:9$77.less
(define-fun |top#84| ((state |top_s|)) (_ BitVec 4) (ite (|top#83| state) (concat ((_ extract 2 0) (|top#81| state)) ((_ extract 3 3) (|top#48| state))) (|top#82| state))) ; $33\d[11:8]
(define-fun |top#85| ((state |top_s|)) (_ BitVec 4) (bvadd (concat ((_ extract 2 0) (|top#84| state)) ((_ extract 3 3) (|top#51| state))) #b0011)) ; $add$measure/bcd.v:9$88_Y
(define-fun |top#86| ((state |top_s|)) Bool (bvult (concat ((_ extract 2 0) (|top#84| state)) ((_ extract 3 3) (|top#51| state))) #b0101)) ; $ge$measure/bcd.v:9$87.less
(define-fun |top#87| ((state |top_s|)) (_ BitVec 4) (ite (|top#86| state) (concat ((_ extract 2 0) (|top#84| state)) ((_ extract 3 3) (|top#51| state))) (|top#85| state))) ; $38\d[11:8]
(define-fun |top#88| ((state |top_s|)) (_ BitVec 4) (bvadd (concat ((_ extract 2 0) (|top#87| state)) ((_ extract 3 3) (|top#54| state))) #b0011)) ; $add$measure/bcd.v:9$98_Y
(define-fun |top#89| ((state |top_s|)) Bool (bvult (concat ((_ extract 2 0) (|top#87| state)) ((_ extract 3 3) (|top#54| state))) #b0101)) ; $ge$measure/bcd.v:9$97.less
(define-fun |top#90| ((state |top_s|)) (_ BitVec 4) (ite (|top#89| state) (concat ((_ extract 2 0) (|top#87| state)) ((_ extract 3 3) (|top#54| state))) (|top#88| state))) ; $43\d[11:8]
(define-fun |top#91| ((state |top_s|)) (_ BitVec 4) (bvadd (concat ((_ extract 2 0) (|top#90| state)) ((_ extract 3 3) (|top#57| state))) #b0011)) ; $add$measure/bcd.v:9$108_Y
(define-fun |top#92| ((state |top_s|)) Bool (bvult (concat ((_ extract 2 0) (|top#90| state)) ((_ extract 3 3) (|top#57| state))) #b0101)) ; $ge$measure/bcd.v:9$107.less
(define-fun |top#93| ((state |top_s|)) (_ BitVec 4) (ite (|top#92| state) (concat ((_ extract 2 0) (|top#90| state)) ((_ extract 3 3) (|top#57| state))) (|top#91| state))) ; $48\d[11:8]
(define-fun |top#94| ((state |top_s|)) (_ BitVec 4) (bvadd (concat ((_ extract 2 0) (|top#93| state)) ((_ extract 3 3) (|top#60| state))) #b0011)) ; $add$measure/bcd.v:9$118_Y
(define-fun |top#95| ((state |top_s|)) Bool (bvult (concat ((_ extract 2 0) (|top#93| state)) ((_ extract 3 3) (|top#60| state))) #b0101)) ; $ge$measure/bcd.v:9$117.less
(define-fun |top#96| ((state |top_s|)) (_ BitVec 4) (ite (|top#95| state) (concat ((_ extract 2 0) (|top#93| state)) ((_ extract 3 3) (|top#60| state))) (|top#94| state))) ; $53\d[11:8]
(define-fun |top#97| ((state |top_s|)) (_ BitVec 4) (bvadd (concat ((_ extract 2 0) (|top#96| state)) ((_ extract 3 3) (|top#63| state))) #b0011)) ; $add$measure/bcd.v:9$128_Y
(define-fun |top#98| ((state |top_s|)) Bool (bvult (concat ((_ extract 2 0) (|top#96| state)) ((_ extract 3 3) (|top#63| state))) #b0101)) ; $ge$measure/bcd.v:9$127.less
(define-fun |top#99| ((state |top_s|)) (_ BitVec 4) (ite (|top#98| state) (concat ((_ extract 2 0) (|top#96| state)) ((_ extract 3 3) (|top#63| state))) (|top#97| state))) ; $58\d[11:8]
(define-fun |top#100| ((state |top_s|)) (_ BitVec 4) (bvadd (concat ((_ extract 2 0) (|top#99| state)) ((_ extract 3 3) (|top#66| state))) #b0011)) ; $add$measure/bcd.v:9$138_Y
(define-fun |top#101| ((state |top_s|)) Bool (bvult (concat ((_ extract 2 0) (|top#99| state)) ((_ extract 3 3) (|top#66| state))) #b0101)) ; $ge$measure/bcd.v:9$137.less
(define-fun |top#102| ((state |top_s|)) (_ BitVec 4) (ite (|top#101| state) (concat ((_ extract 2 0) (|top#99| state)) ((_ extract 3 3) (|top#66| state))) (|top#100| state))) ; $63\d[11:8]
(define-fun |top#103| ((state |top_s|)) (_ BitVec 4) (bvadd (concat ((_ extract 2 0) (|top#102| state)) ((_ extract 3 3) (|top#69| state))) #b0011)) ; $add$measure/bcd.v:9$148_Y
(define-fun |top#104| ((state |top_s|)) Bool (bvult (concat ((_ extract 2 0) (|top#102| state)) ((_ extract 3 3) (|top#69| state))) #b0101)) ; $ge$measure/bcd.v:9$147.less
(define-fun |top#105| ((state |top_s|)) (_ BitVec 4) (ite (|top#104| state) (concat ((_ extract 2 0) (|top#102| state)) ((_ extract 3 3) (|top#69| state))) (|top#103| state))) ; $68\d[11:8]
(define-fun |top#106| ((state |top_s|)) (_ BitVec 4) (bvadd (concat ((_ extract 2 0) (|top#105| state)) ((_ extract 3 3) (|top#72| state))) #b0011)) ; $add$measure/bcd.v:9$158_Y
(define-fun |top#107| ((state |top_s|)) Bool (bvult (concat ((_ extract 2 0) (|top#105| state)) ((_ extract 3 3) (|top#72| state))) #b0101)) ; $ge$measure/bcd.v:9$157.less
(define-fun |top#108| ((state |top_s|)) (_ BitVec 4) (ite (|top#107| state) (concat ((_ extract 2 0) (|top#105| state)) ((_ extract 3 3) (|top#72| state))) (|top#106| state))) ; $73\d[11:8]
(define-fun |top#109| ((state |top_s|)) (_ BitVec 4) (bvadd (concat #b000 ((_ extract 3 3) (|top#75| state))) #b0011)) ; $add$measure/bcd.v:9$60_Y
(define-fun |top#110| ((state |top_s|)) Bool (bvult (concat #b000 ((_ extract 3 3) (|top#75| state))) #b0101)) ; $ge$measure/bcd.v:9$59.less
(define-fun |top#111| ((state |top_s|)) (_ BitVec 4) (ite (|top#110| state) (concat #b000 ((_ extract 3 3) (|top#75| state))) (|top#109| state))) ; $24\d[15:12]
(define-fun |top#112| ((state |top_s|)) (_ BitVec 4) (bvadd (concat ((_ extract 2 0) (|top#111| state)) ((_ extract 3 3) (|top#78| state))) #b0011)) ; $add$measure/bcd.v:9$70_Y
(define-fun |top#113| ((state |top_s|)) Bool (bvult (concat ((_ extract 2 0) (|top#111| state)) ((_ extract 3 3) (|top#78| state))) #b0101)) ; $ge$measure/bcd.v:9$69.less
(define-fun |top#114| ((state |top_s|)) (_ BitVec 4) (ite (|top#113| state) (concat ((_ extract 2 0) (|top#111| state)) ((_ extract 3 3) (|top#78| state))) (|top#112| state))) ; $29\d[15:12]
(define-fun |top#115| ((state |top_s|)) (_ BitVec 4) (bvadd (concat ((_ extract 2 0) (|top#114| state)) ((_ extract 3 3) (|top#81| state))) #b0011)) ; $add$measure/bcd.v:9$80_Y
(define-fun |top#116| ((state |top_s|)) Bool (bvult (concat ((_ extract 2 0) (|top#114| state)) ((_ extract 3 3) (|top#81| state))) #b0101)) ; $ge$measure/bcd.v:9$79.less
(define-fun |top#117| ((state |top_s|)) (_ BitVec 4) (ite (|top#116| state) (concat ((_ extract 2 0) (|top#114| state)) ((_ extract 3 3) (|top#81| state))) (|top#115| state))) ; $34\d[15:12]
(define-fun |top#118| ((state |top_s|)) (_ BitVec 4) (bvadd (concat ((_ extract 2 0) (|top#117| state)) ((_ extract 3 3) (|top#84| state))) #b0011)) ; $add$measure/bcd.v:9$90_Y
(define-fun |top#119| ((state |top_s|)) Bool (bvult (concat ((_ extract 2 0) (|top#117| state)) ((_ extract 3 3) (|top#84| state))) #b0101)) ; $ge$measure/bcd.v:9$89.less
(define-fun |top#120| ((state |top_s|)) (_ BitVec 4) (ite (|top#119| state) (concat ((_ extract 2 0) (|top#117| state)) ((_ extract 3 3) (|top#84| state))) (|top#118| state))) ; $39\d[15:12]
(define-fun |top#121| ((state |top_s|)) (_ BitVec 4) (bvadd (concat ((_ extract 2 0) (|top#120| state)) ((_ extract 3 3) (|top#87| state))) #b0011)) ; $add$measure/bcd.v:9$100_Y
(define-fun |top#122| ((state |top_s|)) Bool (bvult (concat ((_ extract 2 0) (|top#120| state)) ((_ extract 3 3) (|top#87| state))) #b0101)) ; $ge$measure/bcd.v:9$99.less
(define-fun |top#123| ((state |top_s|)) (_ BitVec 4) (ite (|top#122| state) (concat ((_ extract 2 0) (|top#120| state)) ((_ extract 3 3) (|top#87| state))) (|top#121| state))) ; $44\d[15:12]
(define-fun |top#124| ((state |top_s|)) (_ BitVec 4) (bvadd (concat ((_ extract 2 0) (|top#123| state)) ((_ extract 3 3) (|top#90| state))) #b0011)) ; $add$measure/bcd.v:9$110_Y
(define-fun |top#125| ((state |top_s|)) Bool (bvult (concat ((_ extract 2 0) (|top#123| state)) ((_ extract 3 3) (|top#90| state))) #b0101)) ; $ge$measure/bcd.v:9$109.less
(define-fun |top#126| ((state |top_s|)) (_ BitVec 4) (ite (|top#125| state) (concat ((_ extract 2 0) (|top#123| state)) ((_ extract 3 3) (|top#90| state))) (|top#124| state))) ; $49\d[15:12]
(define-fun |top#127| ((state |top_s|)) (_ BitVec 4) (bvadd (concat ((_ extract 2 0) (|top#126| state)) ((_ extract 3 3) (|top#93| state))) #b0011)) ; $add$measure/bcd.v:9$120_Y
(define-fun |top#128| ((state |top_s|)) Bool (bvult (concat ((_ extract 2 0) (|top#126| state)) ((_ extract 3 3) (|top#93| state))) #b0101)) ; $ge$measure/bcd.v:9$119.less
(define-fun |top#129| ((state |top_s|)) (_ BitVec 4) (ite (|top#128| state) (concat ((_ extract 2 0) (|top#126| state)) ((_ extract 3 3) (|top#93| state))) (|top#127| state))) ; $54\d[15:12]
(define-fun |top#130| ((state |top_s|)) (_ BitVec 4) (bvadd (concat ((_ extract 2 0) (|top#129| state)) ((_ extract 3 3) (|top#96| state))) #b0011)) ; $add$measure/bcd.v:9$130_Y
(define-fun |top#131| ((state |top_s|)) Bool (bvult (concat ((_ extract 2 0) (|top#129| state)) ((_ extract 3 3) (|top#96| state))) #b0101)) ; $ge$measure/bcd.v:9$129.less
(define-fun |top#132| ((state |top_s|)) (_ BitVec 4) (ite (|top#131| state) (concat ((_ extract 2 0) (|top#129| state)) ((_ extract 3 3) (|top#96| state))) (|top#130| state))) ; $59\d[15:12]
(define-fun |top#133| ((state |top_s|)) (_ BitVec 4) (bvadd (concat ((_ extract 2 0) (|top#132| state)) ((_ extract 3 3) (|top#99| state))) #b0011)) ; $add$measure/bcd.v:9$140_Y
(define-fun |top#134| ((state |top_s|)) Bool (bvult (concat ((_ extract 2 0) (|top#132| state)) ((_ extract 3 3) (|top#99| state))) #b0101)) ; $ge$measure/bcd.v:9$139.less
(define-fun |top#135| ((state |top_s|)) (_ BitVec 4) (ite (|top#134| state) (concat ((_ extract 2 0) (|top#132| state)) ((_ extract 3 3) (|top#99| state))) (|top#133| state))) ; $64\d[15:12]
(define-fun |top#136| ((state |top_s|)) (_ BitVec 4) (bvadd (concat ((_ extract 2 0) (|top#135| state)) ((_ extract 3 3) (|top#102| state))) #b0011)) ; $add$measure/bcd.v:9$150_Y
(define-fun |top#137| ((state |top_s|)) Bool (bvult (concat ((_ extract 2 0) (|top#135| state)) ((_ extract 3 3) (|top#102| state))) #b0101)) ; $ge$measure/bcd.v:9$149.less
(define-fun |top#138| ((state |top_s|)) (_ BitVec 4) (ite (|top#137| state) (concat ((_ extract 2 0) (|top#135| state)) ((_ extract 3 3) (|top#102| state))) (|top#136| state))) ; $69\d[15:12]
(define-fun |top#139| ((state |top_s|)) (_ BitVec 4) (bvadd (concat ((_ extract 2 0) (|top#138| state)) ((_ extract 3 3) (|top#105| state))) #b0011)) ; $add$measure/bcd.v:9$160_Y
(define-fun |top#140| ((state |top_s|)) Bool (bvult (concat ((_ extract 2 0) (|top#138| state)) ((_ extract 3 3) (|top#105| state))) #b0101)) ; $ge$measure/bcd.v:9$159.less
(define-fun |top#141| ((state |top_s|)) (_ BitVec 4) (ite (|top#140| state) (concat ((_ extract 2 0) (|top#138| state)) ((_ extract 3 3) (|top#105| state))) (|top#139| state))) ; $74\d[15:12]
(define-fun |top#142| ((state |top_s|)) (_ BitVec 4) (bvadd (concat ((_ extract 2 0) (|top#141| state)) ((_ extract 3 3) (|top#108| state))) #b0011)) ; $add$measure/bcd.v:9$170_Y
(define-fun |top#143| ((state |top_s|)) Bool (bvult (concat ((_ extract 2 0) (|top#141| state)) ((_ extract 3 3) (|top#108| state))) #b0101)) ; $ge$measure/bcd.v:9$169.less
(define-fun |top#144| ((state |top_s|)) (_ BitVec 4) (ite (|top#143| state) (concat ((_ extract 2 0) (|top#141| state)) ((_ extract 3 3) (|top#108| state))) (|top#142| state))) ; \d [16:13]
(define-fun |top#145| ((state |top_s|)) (_ BitVec 4) (bvadd (concat #b000 ((_ extract 3 3) (|top#111| state))) #b0011)) ; $add$measure/bcd.v:9$72_Y
(define-fun |top#146| ((state |top_s|)) Bool (bvult (concat #b000 ((_ extract 3 3) (|top#111| state))) #b0101)) ; $ge$measure/bcd.v:9$71.less
(define-fun |top#147| ((state |top_s|)) (_ BitVec 4) (ite (|top#146| state) (concat #b000 ((_ extract 3 3) (|top#111| state))) (|top#145| state))) ; $30\d[19:16]
(define-fun |top#148| ((state |top_s|)) (_ BitVec 4) (bvadd (concat ((_ extract 2 0) (|top#147| state)) ((_ extract 3 3) (|top#114| state))) #b0011)) ; $add$measure/bcd.v:9$82_Y
(define-fun |top#149| ((state |top_s|)) Bool (bvult (concat ((_ extract 2 0) (|top#147| state)) ((_ extract 3 3) (|top#114| state))) #b0101)) ; $ge$measure/bcd.v:9$81.less
(define-fun |top#150| ((state |top_s|)) (_ BitVec 4) (ite (|top#149| state) (concat ((_ extract 2 0) (|top#147| state)) ((_ extract 3 3) (|top#114| state))) (|top#148| state))) ; $35\d[19:16]
(define-fun |top#151| ((state |top_s|)) (_ BitVec 4) (bvadd (concat ((_ extract 2 0) (|top#150| state)) ((_ extract 3 3) (|top#117| state))) #b0011)) ; $add$measure/bcd.v:9$92_Y
(define-fun |top#152| ((state |top_s|)) Bool (bvult (concat ((_ extract 2 0) (|top#150| state)) ((_ extract 3 3) (|top#117| state))) #b0101)) ; $ge$measure/bcd.v:9$91.less
(define-fun |top#153| ((state |top_s|)) (_ BitVec 4) (ite (|top#152| state) (concat ((_ extract 2 0) (|top#150| state)) ((_ extract 3 3) (|top#117| state))) (|top#151| state))) ; $40\d[19:16]
(define-fun |top#154| ((state |top_s|)) (_ BitVec 4) (bvadd (concat ((_ extract 2 0) (|top#153| state)) ((_ extract 3 3) (|top#120| state))) #b0011)) ; $add$measure/bcd.v:9$102_Y
(define-fun |top#155| ((state |top_s|)) Bool (bvult (concat ((_ extract 2 0) (|top#153| state)) ((_ extract 3 3) (|top#120| state))) #b0101)) ; $ge$measure/bcd.v:9$101.less
(define-fun |top#156| ((state |top_s|)) (_ BitVec 4) (ite (|top#155| state) (concat ((_ extract 2 0) (|top#153| state)) ((_ extract 3 3) (|top#120| state))) (|top#154| state))) ; $45\d[19:16]
(define-fun |top#157| ((state |top_s|)) (_ BitVec 4) (bvadd (concat ((_ extract 2 0) (|top#156| state)) ((_ extract 3 3) (|top#123| state))) #b0011)) ; $add$measure/bcd.v:9$112_Y
(define-fun |top#158| ((state |top_s|)) Bool (bvult (concat ((_ extract 2 0) (|top#156| state)) ((_ extract 3 3) (|top#123| state))) #b0101)) ; $ge$measure/bcd.v:9$111.less
(define-fun |top#159| ((state |top_s|)) (_ BitVec 4) (ite (|top#158| state) (concat ((_ extract 2 0) (|top#156| state)) ((_ extract 3 3) (|top#123| state))) (|top#157| state))) ; $50\d[19:16]
(define-fun |top#160| ((state |top_s|)) (_ BitVec 4) (bvadd (concat ((_ extract 2 0) (|top#159| state)) ((_ extract 3 3) (|top#126| state))) #b0011)) ; $add$measure/bcd.v:9$122_Y
(define-fun |top#161| ((state |top_s|)) Bool (bvult (concat ((_ extract 2 0) (|top#159| state)) ((_ extract 3 3) (|top#126| state))) #b0101)) ; $ge$measure/bcd.v:9$121.less
(define-fun |top#162| ((state |top_s|)) (_ BitVec 4) (ite (|top#161| state) (concat ((_ extract 2 0) (|top#159| state)) ((_ extract 3 3) (|top#126| state))) (|top#160| state))) ; $55\d[19:16]
(define-fun |top#163| ((state |top_s|)) (_ BitVec 4) (bvadd (concat ((_ extract 2 0) (|top#162| state)) ((_ extract 3 3) (|top#129| state))) #b0011)) ; $add$measure/bcd.v:9$132_Y
(define-fun |top#164| ((state |top_s|)) Bool (bvult (concat ((_ extract 2 0) (|top#162| state)) ((_ extract 3 3) (|top#129| state))) #b0101)) ; $ge$measure/bcd.v:9$131.less
(define-fun |top#165| ((state |top_s|)) (_ BitVec 4) (ite (|top#164| state) (concat ((_ extract 2 0) (|top#162| state)) ((_ extract 3 3) (|top#129| state))) (|top#163| state))) ; $60\d[19:16]
(define-fun |top#166| ((state |top_s|)) (_ BitVec 4) (bvadd (concat ((_ extract 2 0) (|top#165| state)) ((_ extract 3 3) (|top#132| state))) #b0011)) ; $add$measure/bcd.v:9$142_Y
(define-fun |top#167| ((state |top_s|)) Bool (bvult (concat ((_ extract 2 0) (|top#165| state)) ((_ extract 3 3) (|top#132| state))) #b0101)) ; $ge$measure/bcd.v:9$141.less
(define-fun |top#168| ((state |top_s|)) (_ BitVec 4) (ite (|top#167| state) (concat ((_ extract 2 0) (|top#165| state)) ((_ extract 3 3) (|top#132| state))) (|top#166| state))) ; $65\d[19:16]
(define-fun |top#169| ((state |top_s|)) (_ BitVec 4) (bvadd (concat ((_ extract 2 0) (|top#168| state)) ((_ extract 3 3) (|top#135| state))) #b0011)) ; $add$measure/bcd.v:9$152_Y
(define-fun |top#170| ((state |top_s|)) Bool (bvult (concat ((_ extract 2 0) (|top#168| state)) ((_ extract 3 3) (|top#135| state))) #b0101)) ; $ge$measure/bcd.v:9$151.less
(define-fun |top#171| ((state |top_s|)) (_ BitVec 4) (ite (|top#170| state) (concat ((_ extract 2 0) (|top#168| state)) ((_ extract 3 3) (|top#135| state))) (|top#169| state))) ; $70\d[19:16]
(define-fun |top#172| ((state |top_s|)) (_ BitVec 4) (bvadd (concat ((_ extract 2 0) (|top#171| state)) ((_ extract 3 3) (|top#138| state))) #b0011)) ; $add$measure/bcd.v:9$162_Y
(define-fun |top#173| ((state |top_s|)) Bool (bvult (concat ((_ extract 2 0) (|top#171| state)) ((_ extract 3 3) (|top#138| state))) #b0101)) ; $ge$measure/bcd.v:9$161.less
(define-fun |top#174| ((state |top_s|)) (_ BitVec 4) (ite (|top#173| state) (concat ((_ extract 2 0) (|top#171| state)) ((_ extract 3 3) (|top#138| state))) (|top#172| state))) ; $75\d[19:16]
(define-fun |top#175| ((state |top_s|)) (_ BitVec 4) (bvadd (concat ((_ extract 2 0) (|top#174| state)) ((_ extract 3 3) (|top#141| state))) #b0011)) ; $add$measure/bcd.v:9$172_Y
(define-fun |top#176| ((state |top_s|)) Bool (bvult (concat ((_ extract 2 0) (|top#174| state)) ((_ extract 3 3) (|top#141| state))) #b0101)) ; $ge$measure/bcd.v:9$171.less
(define-fun |top#177| ((state |top_s|)) (_ BitVec 4) (ite (|top#176| state) (concat ((_ extract 2 0) (|top#174| state)) ((_ extract 3 3) (|top#141| state))) (|top#175| state))) ; { $80\d[19:16] [3] \d [19:17] }
(define-fun |top#178| ((state |top_s|)) Bool (= (concat ((_ extract 2 0) (|top#177| state)) ((_ extract 3 3) (|top#144| state))) #b0100)) ; $0$formal$measure/bcd.v:11$3_CHECK[0:0]$7
(define-fun |top_u 0| ((state |top_s|)) Bool (or (|top#178| state) (not true))) ; $assume$measure/bcd.v:11$176
(define-fun |top#179| ((state |top_s|)) (_ BitVec 4) (bvadd (concat ((_ extract 2 0) (|top#36| state)) ((_ extract 3 3) (|top#0| state))) #b0011)) ; $add$measure/bcd.v:9$144_Y
(define-fun |top#180| ((state |top_s|)) Bool (bvult (concat ((_ extract 2 0) (|top#36| state)) ((_ extract 3 3) (|top#0| state))) #b0101)) ; $ge$measure/bcd.v:9$143.less
(define-fun |top#181| ((state |top_s|)) (_ BitVec 4) (ite (|top#180| state) (concat ((_ extract 2 0) (|top#36| state)) ((_ extract 3 3) (|top#0| state))) (|top#179| state))) ; $66\d[3:0]
(define-fun |top#182| ((state |top_s|)) (_ BitVec 4) (bvadd (concat ((_ extract 2 0) (|top#181| state)) ((_ extract 2 2) (|top#0| state))) #b0011)) ; $add$measure/bcd.v:9$154_Y
(define-fun |top#183| ((state |top_s|)) Bool (bvult (concat ((_ extract 2 0) (|top#181| state)) ((_ extract 2 2) (|top#0| state))) #b0101)) ; $ge$measure/bcd.v:9$153.less
(define-fun |top#184| ((state |top_s|)) (_ BitVec 4) (ite (|top#183| state) (concat ((_ extract 2 0) (|top#181| state)) ((_ extract 2 2) (|top#0| state))) (|top#182| state))) ; $71\d[3:0]
(define-fun |top#185| ((state |top_s|)) (_ BitVec 4) (bvadd (concat ((_ extract 2 0) (|top#72| state)) ((_ extract 3 3) (|top#181| state))) #b0011)) ; $add$measure/bcd.v:9$156_Y
(define-fun |top#186| ((state |top_s|)) Bool (bvult (concat ((_ extract 2 0) (|top#72| state)) ((_ extract 3 3) (|top#181| state))) #b0101)) ; $ge$measure/bcd.v:9$155.less
(define-fun |top#187| ((state |top_s|)) (_ BitVec 4) (ite (|top#186| state) (concat ((_ extract 2 0) (|top#72| state)) ((_ extract 3 3) (|top#181| state))) (|top#185| state))) ; $72\d[7:4]
(define-fun |top#188| ((state |top_s|)) (_ BitVec 4) (bvadd (concat ((_ extract 2 0) (|top#187| state)) ((_ extract 3 3) (|top#184| state))) #b0011)) ; $add$measure/bcd.v:9$166_Y
(define-fun |top#189| ((state |top_s|)) Bool (bvult (concat ((_ extract 2 0) (|top#187| state)) ((_ extract 3 3) (|top#184| state))) #b0101)) ; $ge$measure/bcd.v:9$165.less
(define-fun |top#190| ((state |top_s|)) (_ BitVec 4) (ite (|top#189| state) (concat ((_ extract 2 0) (|top#187| state)) ((_ extract 3 3) (|top#184| state))) (|top#188| state))) ; \d [8:5]
(define-fun |top#191| ((state |top_s|)) (_ BitVec 4) (bvadd (concat ((_ extract 2 0) (|top#108| state)) ((_ extract 3 3) (|top#187| state))) #b0011)) ; $add$measure/bcd.v:9$168_Y
(define-fun |top#192| ((state |top_s|)) Bool (bvult (concat ((_ extract 2 0) (|top#108| state)) ((_ extract 3 3) (|top#187| state))) #b0101)) ; $ge$measure/bcd.v:9$167.less
(define-fun |top#193| ((state |top_s|)) (_ BitVec 4) (ite (|top#192| state) (concat ((_ extract 2 0) (|top#108| state)) ((_ extract 3 3) (|top#187| state))) (|top#191| state))) ; \d [12:9]
(define-fun |top#194| ((state |top_s|)) Bool (= (concat ((_ extract 2 0) (|top#193| state)) ((_ extract 3 3) (|top#190| state))) #b0111)) ; $0$formal$measure/bcd.v:12$4_CHECK[0:0]$9
(define-fun |top_u 1| ((state |top_s|)) Bool (or (|top#194| state) (not true))) ; $assume$measure/bcd.v:12$177
(define-fun |top#195| ((state |top_s|)) (_ BitVec 4) (bvadd (concat ((_ extract 2 0) (|top#184| state)) ((_ extract 1 1) (|top#0| state))) #b0011)) ; $add$measure/bcd.v:9$164_Y
(define-fun |top#196| ((state |top_s|)) Bool (bvult (concat ((_ extract 2 0) (|top#184| state)) ((_ extract 1 1) (|top#0| state))) #b0101)) ; $ge$measure/bcd.v:9$163.less
(define-fun |top#197| ((state |top_s|)) (_ BitVec 4) (ite (|top#196| state) (concat ((_ extract 2 0) (|top#184| state)) ((_ extract 1 1) (|top#0| state))) (|top#195| state))) ; \d [4:1]
(define-fun |top#198| ((state |top_s|)) Bool (= (concat ((_ extract 2 0) (|top#197| state)) ((_ extract 0 0) (|top#0| state))) (concat ((_ extract 2 0) (|top#144| state)) ((_ extract 3 3) (|top#193| state))))) ; $0$formal$measure/bcd.v:13$5_CHECK[0:0]$11
(define-fun |top_u 2| ((state |top_s|)) Bool (or (|top#198| state) (not true))) ; $assume$measure/bcd.v:13$178
(define-fun |top_a| ((state |top_s|)) Bool true)
(define-fun |top_u| ((state |top_s|)) Bool (and
  (|top_u 0| state)
  (|top_u 1| state)
  (|top_u 2| state)
))
(define-fun |top_i| ((state |top_s|)) Bool true)
(define-fun |top_h| ((state |top_s|)) Bool true)
(define-fun |top_t| ((state |top_s|) (next_state |top_s|)) Bool true) ; end of module top
(declare-fun s () |top_s|)
(assert (|top_u| s))
(check-sat)
