-- Closes what a gateway left open that died without Stops: its records, at what they were last told (an Interim, or the Start), with the cause
-- that RFC 2866 section 5.10 has for a crash, and its addresses of the pool. To be run before the gateway is started anew:
--
--   psql -v box=192.0.2.13 -f lab/close-records.sql radius
BEGIN;
UPDATE radacct
    SET acctstoptime = COALESCE(acctupdatetime, acctstarttime), acctterminatecause = 'NAS-Reboot'
    WHERE acctstoptime IS NULL AND nasipaddress = :'box';
UPDATE radippool
    SET expiry_time = 'now'::timestamp(0) - '1 second'::interval
    WHERE nasipaddress = :'box' AND expiry_time > 'now'::timestamp(0);
COMMIT;
